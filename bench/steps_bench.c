/*
 * Measures hirelog_lms_check over its count of chain steps:  steps_bench ROUNDS FOLDER
 *
 * The folder has files for one call (works.h); their signatures are of one height and of one-time
 * type 4. Of those with one count of steps the first is measured. In each round each of these is
 * checked once, one after the other, on one processor; the least time over all rounds counts. It is
 * an error if a signature is bad, or if portable C takes another count for one that is measured.
 *
 * Through the times a line is laid, by least squares: what a step takes, and what a check takes
 * besides its steps.
 */
#define _GNU_SOURCE
#define BENCH "steps_bench"
#include "portable_lms.h"
#include "slots.h"
#include "timing.h"
#include "works.h"

#include <inttypes.h>

/* Document 02, W7: the counts of one-time type 4 are 510, 765 and so on, up to 8,415. */
enum { STEPS_LEAST = 510, STEPS_APART = 255, COUNTS = 32 };

/* A count of steps, and the signatures that have it. */
struct point {
    uint32_t steps;
    size_t signatures;
    const struct slot *first;
    double ns; /* the least time of the first */
};

struct line {
    double step, besides; /* nanoseconds */
};

static struct slot slots[SUBMISSIONS_MOST * SLOTS_MOST];
static struct point points[COUNTS]; /* by steps; without signatures where none was found */

/* ---- the signatures */

static struct hirelog_lms_answer check(const struct slot *s)
{
    return hirelog_lms_check(s->key, KEY_SIZE, s->statement, s->statement_len, s->signature,
                             s->signature_len);
}

static uint64_t portable_steps(const struct slot *s)
{
    struct portable_lms_blocks blocks;
    portable_lms_good(s->key, KEY_SIZE, s->statement, s->statement_len, s->signature,
                      s->signature_len, &blocks);
    return blocks.chains; /* a block for each step */
}

/* Counts a signature among those with as many steps. */
static void take(const struct slot *slot, const char *folder)
{
    struct hirelog_lms_answer answer = check(slot);
    uint32_t at = (answer.steps - STEPS_LEAST) / STEPS_APART;
    if (answer.number != HIRELOG_OK)
        stop("there is a bad signature in ", folder);
    if (at >= COUNTS || answer.steps != STEPS_LEAST + STEPS_APART * at)
        stop("a count of steps that one-time type 4 does not have, in ", folder);
    if (points[at].signatures++ > 0)
        return;
    points[at].steps = answer.steps;
    points[at].first = slot;
    if (portable_steps(slot) != answer.steps)
        stop("another count of steps than portable C's, in ", folder);
}

/* Takes all signatures of the folder; their number. */
static size_t take_all(const char *folder)
{
    static struct work work;
    size_t count = 0;
    read_work(folder, &work);
    for (size_t i = 0; i < work.submission_count; i++)
        count += read_slots(&work.roster, &work.submissions[i], slots + count);
    for (size_t i = 0; i < count; i++)
        take(&slots[i], folder);
    return count;
}

/* ---- rounds */

static void measure(struct point *point, int round)
{
    double start = now_ns();
    struct hirelog_lms_answer answer = check(point->first);
    double ns = now_ns() - start;
    if (answer.number != HIRELOG_OK || answer.steps != point->steps)
        stop("another answer than before", "");
    if (round == 0 || ns < point->ns)
        point->ns = ns;
}

/* ---- the table */

/* The line of least squares, through two points at least. */
static struct line line_through(void)
{
    double count = 0, x = 0, y = 0, xx = 0, xy = 0;
    for (const struct point *p = points; p < points + COUNTS; p++) {
        if (p->signatures == 0)
            continue;
        count++;
        x += p->steps;
        y += p->ns;
        xx += (double)p->steps * p->steps;
        xy += p->steps * p->ns;
    }
    if (count < 2)
        stop("there are no two counts of steps to lay a line through", "");
    double step = (count * xy - x * y) / (count * xx - x * x);
    return (struct line){step, (y - step * x) / count};
}

/* Prints each count's time, and how far it is off the line, in per cent; the most of these. */
static double print_points(const struct line *line)
{
    double farthest = 0;
    printf("%8s %12s %10s %10s %12s\n", "steps", "signatures", "us/check", "ns/step",
           "off line, %");
    for (const struct point *p = points; p < points + COUNTS; p++) {
        if (p->signatures == 0)
            continue;
        double off = 100 * (p->ns / (line->besides + line->step * p->steps) - 1);
        printf("%8" PRIu32 " %12zu %10.1f %10.1f %+12.2f\n", p->steps, p->signatures, p->ns / 1e3,
               p->ns / p->steps, off);
        if (off > farthest || -off > farthest)
            farthest = off < 0 ? -off : off;
    }
    return farthest;
}

int main(int argc, char **argv)
{
    int rounds = argc == 3 ? atoi(argv[1]) : 0;
    if (rounds < 1) {
        fprintf(stderr, "usage: steps_bench ROUNDS FOLDER\n");
        return 1;
    }
    size_t count = take_all(argv[2]);
    if (count == 0)
        stop("there is no signature to check in ", argv[2]);
    stay();
    for (int round = 0; round < rounds; round++)
        for (struct point *p = points; p < points + COUNTS; p++)
            if (p->signatures > 0)
                measure(p, round);

    double all = 0;
    for (const struct point *p = points; p < points + COUNTS; p++)
        all += (double)p->steps * (double)p->signatures;
    struct line line = line_through();
    printf("%zu signatures of %s, on average %.0f steps. Best of %d rounds.\n\n", count, argv[2],
           all / (double)count, rounds);
    double farthest = print_points(&line);
    printf("\nline through them: %.1f ns a step and %.1f us besides, at most %.2f %% off\n",
           line.step, line.besides / 1e3, farthest);
    return 0;
}
