/*
 * Measures hirelog_audit, hirelog_district and hirelog_assemble beside the signature checks that they
 * have to make:
 *
 *   audit_bench CHECKS FOLDER[=MOST]...
 *
 * Each folder has files for one of them (works.h). Their signatures, of what is assembled those that
 * stand in it, are taken out beforehand, with key and statement, each submission's once, and are then
 * checked alone: by hirelog_lms_check, by portable C, and by the same C over OpenSSL's SHA-256 with
 * SHA instructions and without (child.h). An audit by one of those verifiers would take longer than
 * its checks alone by what it reads and hashes besides, so the ratios are to the least that such an
 * audit takes. The others are measured beside our own checks alone. Where a folder's call takes more
 * than MOST of the time of its checks, the exit status is 1.
 *
 * In each round every implementation does its work once, one after the other, on one processor; the
 * least time over all rounds counts, of those in which the program was running. There are as many
 * rounds as make CHECKS checks, but 15 at least.
 */
#define _GNU_SOURCE
#define BENCH "audit_bench"
#include "child.h"
#include "openssl_lms.h"
#include "portable_lms.h"
#include "slots.h"
#include "timing.h"
#include "works.h"

enum { ROUNDS_LEAST = 15 };

/* A folder's call, and the signature checks in it. */
struct bench {
    struct work work;
    double most; /* what the call may take, of the time of its checks alone; 0 if it is not held */
    struct slot slots[SUBMISSIONS_MOST * SLOTS_MOST];
    size_t count;
};

typedef int bench_function(const struct bench *bench); /* whether all was good */

/* ---- the implementations */

static int ours(const struct bench *b)
{
    return make_call(&b->work);
}

static int our_checks(const struct bench *b)
{
    size_t good = 0;
    for (const struct slot *s = b->slots; s < b->slots + b->count; s++) {
        struct hirelog_lms_answer answer = hirelog_lms_check(
            s->key, KEY_SIZE, s->statement, s->statement_len, s->signature, s->signature_len);
        good += answer.number == HIRELOG_OK;
    }
    return good == b->count;
}

static int portable_checks(const struct bench *b)
{
    struct portable_lms_blocks blocks;
    size_t good = 0;
    for (const struct slot *s = b->slots; s < b->slots + b->count; s++)
        good += (size_t)portable_lms_good(s->key, KEY_SIZE, s->statement, s->statement_len,
                                          s->signature, s->signature_len, &blocks);
    return good == b->count;
}

static int openssl_checks(const struct bench *b)
{
    struct portable_lms_blocks blocks;
    size_t good = 0;
    for (const struct slot *s = b->slots; s < b->slots + b->count; s++)
        good += (size_t)openssl_lms_good(s->key, KEY_SIZE, s->statement, s->statement_len,
                                         s->signature, s->signature_len, &blocks);
    return good == b->count;
}

enum { OURS, CHECKS, PORTABLE, OPENSSL, WITHOUT, ALL };
static bench_function *const functions[WITHOUT] = {ours, our_checks, portable_checks, openssl_checks};

/* ---- the folders */

/* What an argument names, FOLDER or FOLDER=MOST; from here on the argument is the folder. */
static struct bench *read_bench(char *argument)
{
    struct bench *bench = calloc(1, sizeof *bench);
    char *most = strrchr(argument, '='), *end = "";
    if (!bench)
        stop("no memory for ", argument);
    if (most) {
        bench->most = strtod(most + 1, &end);
        if (*end || bench->most < 1)
            stop("after = has to stand a number that is not below 1: ", argument);
        *most = 0;
    }
    struct work *work = &bench->work;
    read_work(argument, work);
    for (size_t i = 0; i < work->submission_count; i++)
        bench->count +=
            read_slots(&work->roster, &work->submissions[i], bench->slots + bench->count);
    if (bench->count == 0)
        stop("there is no signature to check in ", argument);
    if (!portable_checks(bench))
        stop("portable C finds a bad signature in ", argument);
    return bench;
}

/* ---- rounds */

static double measure(bench_function *function, const struct bench *bench)
{
    double start = worked_ns();
    int good = function(bench);
    double ns = worked_ns() - start;
    if (!good)
        stop("another answer than before to ", bench->work.folder);
    return ns;
}

/* The best time of each of the first so many implementations; the number of rounds. */
static int best_times(const struct bench *bench, uint8_t number, const struct child *child,
                      int checks, int end, double best[ALL])
{
    int rounds = checks / (int)bench->count;
    if (rounds < ROUNDS_LEAST)
        rounds = ROUNDS_LEAST;
    for (int round = 0; round < rounds; round++) {
        for (int i = 0; i < end; i++) {
            double ns;
            if (i != WITHOUT)
                ns = measure(functions[i], bench);
            else if (!ask_child(child, number, &ns, sizeof ns))
                stop("the child gave no answer to ", bench->work.folder);
            if (round == 0 || ns < best[i])
                best[i] = ns;
        }
    }
    return rounds;
}

static void print_work(const struct work *work)
{
    printf("%s: %zu replicas, ", work->folder, (work->roster.len - 18) / KEY_SIZE);
    if (work->call == ASSEMBLE) {
        printf("%zu records and %zu bytes of items, a submission of %zu bytes",
               work->log.len / RECORD_SIZE, work->items.len, work->submissions[0].len);
        return;
    }
    printf("%zu submissions of", work->submission_count);
    for (size_t i = 0; i < work->submission_count; i++)
        printf("%s %zu", i == 0 ? "" : ",", work->submissions[i].len);
    printf(" bytes");
}

/* Prints the times of a folder; whether they are as they have to be. */
static int compare(const struct bench *bench, uint8_t number, const struct child *child, int checks)
{
    char our_name[64];
    const char *const names[ALL] = {our_name, "its checks (hirelog_lms_check)",
                                    "portable C's checks",
                                    cpu_has_sha() ? "OpenSSL's, SHA instructions" : "OpenSSL's",
                                    "OpenSSL's without them"};
    double best[ALL]; /* nanoseconds */
    enum call call = bench->work.call;
    int end = call == AUDIT ? ALL : PORTABLE;
    int rounds = best_times(bench, number, child, checks, end, best);
    double ratio = best[OURS] / best[CHECKS];
    snprintf(our_name, sizeof our_name, "ours (%s)", call_names[call]);
    print_work(&bench->work);
    printf(", %zu signatures. Best of %d rounds.\n\n", bench->count, rounds);
    printf("%-32s %10s %14s %10s\n", "", "ms/call", "us/signature", "ours/this");
    for (int i = 0; i < end; i++)
        printf("%-32s %10.2f %14.1f %10.3f\n", names[i], best[i] / 1e6,
               best[i] / 1e3 / (double)bench->count, best[OURS] / best[i]);
    printf("\nratio of %s: to its signature checks alone %.3f", call_names[call], ratio);
    if (call == AUDIT)
        printf(", to portable C's %.2f", best[OURS] / best[PORTABLE]);
    if (bench->most > 0)
        printf(", at most %.2f", bench->most);
    printf("\n\n");
    fflush(stdout);
    return bench->most == 0 || ratio <= bench->most;
}

int main(int argc, char **argv)
{
    int serves = argc > 2 && strcmp(argv[1], "--serve") == 0;
    int checks = argc > 2 && !serves ? atoi(argv[1]) : 0;
    if (!serves && (checks < 1 || argc - 2 > UINT8_MAX)) {
        fprintf(stderr, "usage: audit_bench CHECKS FOLDER[=MOST]...\n");
        return 1;
    }
    struct bench **benches = calloc((size_t)argc, sizeof *benches);
    for (int i = 2; benches && i < argc; i++)
        benches[i] = read_bench(argv[i]);
    if (serves) {
        for (uint8_t number; next_round(&number);) {
            double ns = measure(openssl_checks, benches[number]);
            send_result(&ns, sizeof ns);
        }
        return 0;
    }

    struct child child;
    stay();
    argv[1] = "--serve"; /* the child has the same folders */
    if (!start_child(&child, argv))
        stop("no child", "");
    int good = 1;
    for (int i = 2; i < argc; i++)
        good &= compare(benches[i], (uint8_t)i, &child, checks);
    end_child(&child);
    if (!good)
        stop("a call takes longer than it may: measure again with nothing beside it, then look at ",
             "what is done twice for a submission");
    return 0;
}
