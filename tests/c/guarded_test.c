/*
 * Holds guarded.h to what it promises, so that no test passes because nothing is guarded any more.
 *
 *   guarded_test
 *
 * A child for each use of a buffer: one that is not allowed has to end it with status 1, and to
 * name the byte. Then the guard bytes have to show each byte that was written. The first failure is
 * printed, and the exit status is then 1.
 */
#define _GNU_SOURCE
#include "guarded.h"

#include <stdio.h>
#include <stdlib.h>
#include <string.h>
#include <sys/wait.h>
#include <unistd.h>

enum { LEN = 53 };

/* A byte of a buffer is read or written: whether that is allowed. */
struct use {
    int offered, written;
    enum guarded_side side;
    ptrdiff_t at;
    int allowed;
};

static const struct use uses[] = {
    {0, 0, PAGE_AFTER, 0, 1},    {0, 0, PAGE_AFTER, LEN - 1, 1}, {0, 0, PAGE_BEFORE, 0, 1},
    {0, 0, PAGE_AFTER, LEN, 0},  {0, 0, PAGE_BEFORE, -1, 0},     {0, 1, PAGE_AFTER, 0, 0},
    {0, 1, PAGE_BEFORE, 7, 0},   {1, 1, PAGE_AFTER, 0, 1},       {1, 1, PAGE_AFTER, LEN - 1, 1},
    {1, 1, PAGE_BEFORE, 0, 1},   {1, 0, PAGE_BEFORE, 7, 1},      {1, 1, PAGE_AFTER, LEN, 0},
    {1, 1, PAGE_BEFORE, -1, 0},  {1, 0, PAGE_AFTER, LEN, 0},     {1, 0, PAGE_BEFORE, -1, 0},
};

static struct guarded lent_room, offered_room;
static const uint8_t bytes[LEN];
static volatile uint8_t read_byte;

static _Noreturn void fail(const char *what, int side, ptrdiff_t at)
{
    printf("guarded_test: FAILED: %s: byte %td, the unreadable page %s\n", what, at,
           side == PAGE_AFTER ? "after the buffer" : "before the buffer");
    fflush(stdout);
    _exit(1);
}

static _Noreturn void guarded_stop(const char *why, const char *hint)
{
    printf("guarded_test: FAILED: the buffers: %s; %s\n", why, hint);
    exit(1);
}

/* ---- faults */

static void use_byte(const struct use *use)
{
    volatile uint8_t *buffer = use->offered
                                   ? guarded_offer(&offered_room, LEN, use->side, 0)
                                   : (uint8_t *)guarded_lend(&lent_room, bytes, LEN, use->side);
    if (use->written)
        buffer[use->at] = 1;
    else
        read_byte = buffer[use->at];
}

/* Uses the byte in a child; its status, and what it says. */
static int use_in_child(const struct use *use, char *said, size_t said_len)
{
    int to_parent[2], status = -1;
    if (pipe(to_parent) != 0)
        guarded_stop(strerror(errno), "allow more open files");
    pid_t child = fork();
    if (child == 0) {
        dup2(to_parent[1], STDOUT_FILENO);
        guarded_watch("guarded_test", "  a use on purpose\n");
        use_byte(use);
        _exit(0);
    }
    close(to_parent[1]);
    FILE *from = fdopen(to_parent[0], "r");
    said[from ? fread(said, 1, said_len - 1, from) : 0] = '\0';
    if (from)
        fclose(from);
    if (child < 0 || waitpid(child, &status, 0) != child)
        guarded_stop(strerror(errno), "allow more processes");
    return status;
}

static void check_use(const struct use *use)
{
    char said[400], want[400] = "";
    if (!use->allowed)
        snprintf(want, sizeof want,
                 "guarded_test: FAILED: a fault (memory or instruction) in the call\n"
                 "  a use on purpose\n"
                 "  %s: byte %td (counted from 0) of the %s, which has %d bytes\n",
                 use->written ? "written" : "read", use->at, use->offered ? "output" : "input",
                 LEN);
    int status = use_in_child(use, said, sizeof said);
    if (!WIFEXITED(status) || WEXITSTATUS(status) != !use->allowed)
        fail(use->allowed ? "a use that is allowed fails" : "a use that is not allowed passes",
             use->side, use->at);
    if (strcmp(said, want) != 0)
        fail("a fault is said in other words", use->side, use->at);
}

/* ---- guard bytes */

/* Each byte of a page, changed alone: shown if it is not among the first ones written. */
static unsigned check_guard_bytes(enum guarded_side side, size_t gap, size_t written)
{
    unsigned checks = 0;
    ptrdiff_t shown;
    guarded_offer(&offered_room, LEN, side, gap);
    if (guarded_changed(&offered_room, 0, &shown))
        fail("a byte that was not written is shown", side, shown);
    for (size_t i = 0; i < offered_room.open_size; i++, checks++) {
        ptrdiff_t at = offered_room.open + i - offered_room.bytes;
        int seen = at < 0 || at >= (ptrdiff_t)written;
        offered_room.open[i] ^= 1;
        if (guarded_changed(&offered_room, written, &shown) != seen || (seen && shown != at))
            fail("a byte that was written is not shown, or another is", side, at);
        offered_room.open[i] ^= 1;
    }
    return checks;
}

int main(void)
{
    unsigned checks = sizeof uses / sizeof *uses;
    guarded_make(&lent_room, "input", LEN);
    guarded_make(&offered_room, "output", LEN + 1);
    for (unsigned i = 0; i < sizeof uses / sizeof *uses; i++)
        check_use(&uses[i]);
    for (size_t gap = 0; gap <= 1; gap++)
        for (int side = PAGE_AFTER; side <= PAGE_BEFORE; side++) {
            checks += check_guard_bytes(side, gap, 0);
            checks += check_guard_bytes(side, gap, LEN - 1);
        }
    printf("guarded_test: %u checks passed\n", checks);
    return 0;
}
