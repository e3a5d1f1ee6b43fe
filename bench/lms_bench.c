/*
 * Measures hirelog_lms_check beside portable C and OpenSSL:  lms_bench ROUNDS VECTORS...
 *
 * lms_vectors.h has the form of a vector file. First all implementations check every signature of
 * the files; an answer other than the file's is an error, and so is another count of chain steps
 * than portable C takes: nothing is measured then. OpenSSL has no LMS: its rows are portable C's
 * check over OpenSSL's SHA-256, without SHA instructions in a child (child.h).
 *
 * Measured is the check of the files' first good signature of height 5 and digit width 8. In each
 * round every implementation checks it once, one after the other, on one processor; the least time
 * over all rounds counts. The portable one counts the blocks of SHA-256 that the check takes.
 *
 * The library checks by four lanes and has no check by one. In its place stands the time in which
 * hirelog_sha256, which is scalar, hashes one message of just as many blocks, padding included: our
 * scalar compressions alone, without what a check does between them.
 */
#define _GNU_SOURCE
#include "child.h"
#include "hirelog.h"
#include "lms_vectors.h"
#include "openssl_lms.h"
#include "portable_lms.h"
#include "timing.h"

#include <inttypes.h>

typedef int check_function(const struct lms_vector *vector);

static uint32_t steps;                    /* of the last check by ours */
static struct portable_lms_blocks blocks; /* of the last check by the portable implementation */

static struct lms_vector measured;

static uint8_t *long_message; /* as many blocks as measured takes, with the padding */
static size_t long_message_len;

static _Noreturn void stop(const char *why, const char *what)
{
    fprintf(stderr, "lms_bench: %s%s\n", why, what);
    exit(1);
}

/* ---- the implementations */

static int ours(const struct lms_vector *v)
{
    struct hirelog_lms_answer answer = hirelog_lms_check(
        v->key, v->key_len, v->message, v->message_len, v->signature, v->signature_len);
    steps = answer.steps;
    return answer.number == HIRELOG_OK;
}

static int portable(const struct lms_vector *v)
{
    return portable_lms_good(v->key, v->key_len, v->message, v->message_len, v->signature,
                             v->signature_len, &blocks);
}

static int openssl(const struct lms_vector *v)
{
    return openssl_lms_good(v->key, v->key_len, v->message, v->message_len, v->signature,
                            v->signature_len, &blocks);
}

/* No check: as many blocks by our scalar SHA-256. */
static int scalar(const struct lms_vector *v)
{
    uint8_t digest[HIRELOG_DIGEST_SIZE];
    (void)v;
    return hirelog_sha256(long_message, long_message_len, digest) == HIRELOG_OK;
}

enum { OURS, SCALAR, PORTABLE, OPENSSL, WITHOUT, ALL };
static check_function *const checks[WITHOUT] = {ours, scalar, portable, openssl};

/* ---- the signatures */

/* Holds the answers to the vector's, and keeps the first vector that is to be measured. */
static void try_vector(const struct lms_vector *vector)
{
    static const uint8_t types[8] = {0, 0, 0, 5, 0, 0, 0, 4}; /* height 5, digit width 8 */
    if (ours(vector) != vector->good)
        stop("a wrong answer of hirelog_lms_check to ", vector->name);
    if (portable(vector) != vector->good)
        stop("a wrong answer of portable C to ", vector->name);
    if (steps != blocks.chains) /* a block for each step */
        stop("another count of steps than portable C's for ", vector->name);
    if (openssl(vector) != vector->good)
        stop("a wrong answer over OpenSSL to ", vector->name);
    if (vector->good && measured.name[0] == '\0' && memcmp(vector->key, types, 8) == 0)
        measured = *vector;
}

/*
 * Makes the message of as many blocks as measured takes, of which padding takes 9 bytes at least;
 * how many blocks.
 */
static uint64_t make_long_message(void)
{
    if (!portable(&measured))
        stop("another answer than before to ", measured.name);
    uint64_t count = blocks.message + blocks.chains + blocks.public_key + blocks.tree;
    long_message_len = 64 * (size_t)count - 9;
    long_message = malloc(long_message_len);
    if (!long_message)
        stop("no memory", "");
    for (size_t i = 0; i < long_message_len; i++)
        long_message[i] = (uint8_t)(i * 37);
    return count;
}

/* ---- rounds */

static double measure(check_function *check)
{
    double start = now_ns();
    int good = check(&measured);
    double ns = now_ns() - start;
    if (!good)
        stop("another answer than before to ", measured.name);
    return ns;
}

/* ---- the table */

int main(int argc, char **argv)
{
    int serves = argc > 2 && strcmp(argv[1], "--serve") == 0;
    int rounds = argc > 2 && !serves ? atoi(argv[1]) : 0;
    if (!serves && rounds < 1) {
        fprintf(stderr, "usage: lms_bench ROUNDS VECTORS...\n");
        return 1;
    }
    for (int i = 2; i < argc; i++) {
        const char *problem = for_each_lms_vector(argv[i], try_vector);
        if (problem)
            stop(problem, "");
    }
    if (measured.name[0] == '\0')
        stop("no good signature of height 5 and digit width 8", "");

    if (serves) {
        for (uint8_t kind; next_round(&kind);) {
            double ns = measure(openssl);
            send_result(&ns, sizeof ns);
        }
        return 0;
    }

    struct child child;
    double best[ALL]; /* nanoseconds */
    uint64_t count = make_long_message();
    stay();
    argv[1] = "--serve"; /* the child has the same files */
    if (!start_child(&child, argv))
        stop("no child", "");
    for (int round = 0; round < rounds; round++) {
        for (int i = 0; i < ALL; i++) {
            double ns;
            if (i != WITHOUT)
                ns = measure(checks[i]);
            else if (!ask_child(&child, 0, &ns, sizeof ns))
                stop("the child gave no answer", "");
            if (round == 0 || ns < best[i])
                best[i] = ns;
        }
    }
    end_child(&child);

    const char *const names[ALL] = {"ours (hirelog_lms_check)",
                                    "as many blocks by hirelog_sha256 (scalar)", "portable C",
                                    cpu_has_sha() ? "OpenSSL, SHA instructions" : "OpenSSL",
                                    "OpenSSL without them"};
    printf("Check of %s: height 5, digit width 8. Best of %d rounds.\n", measured.name, rounds);
    printf("Chain steps: %" PRIu32 ". Blocks of SHA-256: %" PRIu64 " (message %" PRIu64
           ", chains %" PRIu64 ", public key %" PRIu64 ", tree %" PRIu64 ").\n\n",
           steps, count, blocks.message, blocks.chains, blocks.public_key, blocks.tree);
    printf("%-42s %10s %10s %10s %10s\n", "", "us/check", "ns/step", "ns/block", "ours/this");
    for (int i = 0; i < ALL; i++) {
        char per_step[24] = ""; /* scalar is no check, and has no steps */
        if (i != SCALAR)
            snprintf(per_step, sizeof per_step, "%.1f", best[i] / steps);
        printf("%-42s %10.1f %10s %10.1f %10.2f\n", names[i], best[i] / 1e3, per_step,
               best[i] / (double)count, best[OURS] / best[i]);
    }
    printf("\nratio to portable C: signature check %.2f\n", best[OURS] / best[PORTABLE]);
    printf("ratio to as many blocks by hirelog_sha256 (scalar): %.2f\n", best[OURS] / best[SCALAR]);
    return 0;
}
