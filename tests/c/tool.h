/*
 * What the bench tools share: the calls that each makes and how it holds them to each other, and
 * the files of a folder. A tool defines TOOL, its name, and OUTPUT, what it calls the buffer that a
 * call writes into, before it includes this, and afterwards the three functions that are declared
 * here.
 */
#ifndef TESTS_C_TOOL_H
#define TESTS_C_TOOL_H

#include "failures.h"
#include "guarded.h"
#include "hirelog.h"

#include <inttypes.h>

/* What a call is lent to read. */
enum { INPUTS = 3 };

/* The calls, in their order. */
enum call { AFTER_EACH, BEFORE_EACH, NULLS, CALLS };

static const char *const call_names[CALLS] = {
    "with an unreadable page right after each buffer",
    "with an unreadable page right before each buffer",
    "with NULL for each buffer of no bytes",
};

static struct file inputs[INPUTS], expected;
static size_t output_len;

static struct guarded input_rooms[INPUTS], output_room;

/* What a call gives: the number, and how many of the output's first bytes it has to write. */
struct answer {
    uint32_t number;
    size_t written;
    const uint8_t *output; /* until the next call */
};

/* The tool's own: makes the call on what is lent, looks at its answer, and prints it. */
static struct answer call_library(const uint8_t *const lent[INPUTS], uint8_t *output);
static void check_answer(const struct answer *answer);
static void print_lines(const struct answer *answer);

/* The output's buffer in hex, for a tool whose output is short. */
__attribute__((unused)) static void print_output(void)
{
    printf(OUTPUT " ");
    for (size_t i = 0; i < output_len; i++)
        printf("%02x", output_room.bytes[i]);
    printf("\n");
}

/* ---- what must hold */

/* No byte in or around the output changed but those that the call writes. */
static void check_kept(const struct answer *answer)
{
    ptrdiff_t at;
    if (guarded_changed(&output_room, answer->written, &at))
        fail("byte %td of the " OUTPUT " (%zu are the call's) was written", at, answer->written);
}

/*
 * The output must begin with the bytes of the folder's file. What the call does not write has been
 * looked at: there the file has what compare filled its buffer with.
 */
static void check_expected(const struct answer *answer)
{
    for (size_t i = 0; i < expected.len; i++)
        if (i >= output_len || (i < answer->written && answer->output[i] != expected.bytes[i]))
            fail("byte %zu of the " OUTPUT " is not that of the file " OUTPUT, i);
    if (expected.bytes && expected.len < answer->written)
        fail("the file " OUTPUT " is shorter than the " OUTPUT);
}

/* A later call must give what the first did, whose output is kept. */
static void check_same(const struct answer *first, const struct file *kept,
                       const struct answer *again)
{
    if (again->number != first->number || again->written != kept->len ||
        (kept->len > 0 && memcmp(again->output, kept->bytes, kept->len) != 0))
        fail("another number or " OUTPUT " than in the first call");
}

/* ---- the calls */

/* Makes one of them; the output is then in its room. */
static struct answer call_so(enum call call)
{
    enum guarded_side side = call == BEFORE_EACH ? PAGE_BEFORE : PAGE_AFTER;
    const uint8_t *lent[INPUTS];
    for (int i = 0; i < INPUTS; i++) {
        const uint8_t *copy = guarded_lend(&input_rooms[i], inputs[i].bytes, inputs[i].len, side);
        lent[i] = call == NULLS && inputs[i].len == 0 ? NULL : copy;
    }
    uint8_t *output = guarded_offer(&output_room, output_len, side, 0);
    if (call == NULLS && output_len == 0)
        output = NULL;
    snprintf(under_way, sizeof under_way, "  %s\n", call_names[call]);
    return call_library(lent, output);
}

/* Makes the calls, prints what the first gives, and holds the others to it. */
static void run_calls(const char *const names[INPUTS])
{
    struct answer first = {0}, again;
    struct file kept = {0}; /* what the first wrote */
    int empty = output_len == 0;
    for (int i = 0; i < INPUTS; i++) {
        guarded_make(&input_rooms[i], names[i], inputs[i].len);
        empty |= inputs[i].len == 0;
    }
    guarded_make(&output_room, OUTPUT, output_len);
    guarded_watch(TOOL, under_way);
    for (enum call call = AFTER_EACH; call < (empty ? CALLS : NULLS); call++) {
        again = call_so(call);
        check_answer(&again);
        check_kept(&again);
        if (call == AFTER_EACH) {
            first = again;
            if (append(&kept, first.output, first.written))
                stop("the buffers", "no memory", "free some");
            printf("number %" PRIu32 "\n", first.number);
            print_lines(&first);
            fflush(stdout);
        }
        check_same(&first, &kept, &again);
        check_expected(&again);
    }
    free(kept.bytes);
}

/* ---- the files */

static void read_length(const char *text, const char *from)
{
    char *end;
    errno = 0;
    unsigned long long len = strtoull(text, &end, 10);
    if (errno || end == text || *end > ' ' || *text == '-' || len > 1 << 30)
        stop(from, "not a length of the " OUTPUT, "write a number up to 1073741824");
    output_len = (size_t)len;
}

/* Reads a file of the folder, which has to be there. */
static void read_part(const char *folder, const char *name, struct file *file)
{
    char path[4096];
    snprintf(path, sizeof path, "%s/%s", folder, name);
    read_input(file, path, "put a readable file there, an empty one for no bytes");
}

/* Reads a file of the folder, if it is there. */
static int read_optional(const char *folder, const char *name, struct file *file)
{
    char path[4096];
    snprintf(path, sizeof path, "%s/%s", folder, name);
    int problem = read_file(path, file);
    if (problem && problem != ENOENT)
        stop(path, strerror(problem), "make it readable, or take it away");
    return problem == 0;
}

/* Reads what the folder says of the output: its length and its bytes, if they are there. */
static void read_output(const char *folder)
{
    struct file length;
    char text[32];
    if (read_optional(folder, OUTPUT "_length", &length)) {
        snprintf(text, sizeof text, "%.*s", (int)(length.len < 31 ? length.len : 31), length.bytes);
        read_length(text, OUTPUT "_length");
    }
    read_optional(folder, OUTPUT, &expected);
}

#endif
