/*
 * Measures how much stack the library's calls need:
 *
 *   stack_use MOST KEY MESSAGE SIGNATURE FOLDER...
 *
 * Each call is made on a stack of its own, whose bytes were painted beforehand. The stack grows
 * downwards, so what was used reaches from the lowest byte that changed up to its end, a little of
 * which is the caller's. The signature check and the digest are those of the three files; each
 * folder has files for one of the others (works.h). Of several folders for one call the most counts.
 * The exit status is 1 if a call needs more than MOST bytes.
 */
#define _GNU_SOURCE
#define BENCH "stack_use"
#include "works.h"

#include <sys/mman.h>
#include <ucontext.h>

enum { STACK_SIZE = 1 << 20, PAINT = 0xa5 };

static uint8_t *stack;
static ucontext_t caller, callee;

/* What is called on the painted stack, and whether its answer was as it has to be. */
static int (*function)(void);
static int good;

static struct file key, message, signature;
static struct work work;

static int check(void)
{
    struct hirelog_lms_answer answer = hirelog_lms_check(
        key.bytes, key.len, message.bytes, message.len, signature.bytes, signature.len);
    return answer.number == HIRELOG_OK;
}

static int digest(void)
{
    uint8_t bytes[HIRELOG_DIGEST_SIZE];
    return hirelog_sha256(message.bytes, message.len, bytes) == HIRELOG_OK;
}

static int call(void)
{
    return make_call(&work);
}

static void start(void)
{
    good = function();
}

/* The bytes of stack that a function needs; what it is called on is named if it fails. */
static size_t needed(int (*called)(void), const char *on)
{
    memset(stack, PAINT, STACK_SIZE);
    if (getcontext(&callee) != 0)
        stop("no context for ", on);
    callee.uc_stack.ss_sp = stack;
    callee.uc_stack.ss_size = STACK_SIZE;
    callee.uc_link = &caller;
    makecontext(&callee, start, 0);
    function = called;
    good = 0;
    if (swapcontext(&caller, &callee) != 0 || !good)
        stop("another answer than it should be to ", on);
    size_t kept = 0;
    while (kept < STACK_SIZE && stack[kept] == PAINT)
        kept++;
    return STACK_SIZE - kept;
}

static void read_input(const char *path, struct file *file)
{
    if (read_file(path, file) != 0)
        stop("it has to be readable: ", path);
}

/* Prints what a call needs; whether that is not too much. */
static int print_needed(const char *name, size_t bytes, size_t most)
{
    printf("%-20s %8zu\n", name, bytes);
    return bytes <= most;
}

int main(int argc, char **argv)
{
    size_t most = argc > 5 ? strtoul(argv[1], NULL, 10) : 0, calls[CALLS] = {0};
    if (most == 0) {
        fprintf(stderr, "usage: stack_use MOST KEY MESSAGE SIGNATURE FOLDER...\n");
        return 1;
    }
    stack = mmap(NULL, STACK_SIZE, PROT_READ | PROT_WRITE, MAP_PRIVATE | MAP_ANONYMOUS, -1, 0);
    if (stack == MAP_FAILED)
        stop("no memory for a stack", "");
    read_input(argv[2], &key);
    read_input(argv[3], &message);
    read_input(argv[4], &signature);
    printf("%-20s %8s\n", "", "bytes");
    int within = print_needed("hirelog_sha256", needed(digest, argv[3]), most);
    within &= print_needed("hirelog_lms_check", needed(check, argv[4]), most);
    for (int i = 5; i < argc; i++) {
        read_work(argv[i], &work);
        size_t bytes = needed(call, argv[i]);
        if (bytes > calls[work.call])
            calls[work.call] = bytes;
    }
    for (int i = 0; i < CALLS; i++)
        if (calls[i] > 0)
            within &= print_needed(call_names[i], calls[i], most);
    printf("\nat most %zu are to be needed\n", most);
    if (!within)
        stop("a call needs more: mend that, or say in include/hirelog.h and docs/C.md how much",
             "");
    return 0;
}
