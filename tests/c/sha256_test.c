/*
 * Runs hirelog_sha256 and holds what it does to published vectors and to OpenSSL.
 *
 *   sha256_test VECTORS...
 *
 * A line of a vector file is a message and its digest in hex; - stands for no bytes. The last part
 * uses random messages from a fresh seed, which is printed; SEED=number in the environment runs it
 * from that seed again. The first failure is printed, and the exit status is then 1.
 *
 * In every call an unreadable page stands right after the message, or right before it, and the
 * message cannot be written. The digest stands among guard bytes, an unreadable page at most 15
 * bytes from it, so that every alignment has its turn.
 */
#define _GNU_SOURCE
#include "guarded.h"
#include "hex.h"
#include "hirelog.h"
#include "lines.h"

#include <openssl/sha.h>

#include <inttypes.h>
#include <stdarg.h>
#include <stdio.h>
#include <stdlib.h>
#include <string.h>
#include <sys/random.h>
#include <unistd.h>

enum { DIGEST = HIRELOG_DIGEST_SIZE, ALIGNMENTS = 16 };

static const char *const side_names[] = {
    "the unreadable page right after the message",
    "the unreadable page right before the message",
};

static struct guarded message_room, digest_room;
static unsigned long checks; /* calls whose every outcome was checked */

/* What is being tried, for a failure's report. */
static char part[300] = "set-up";
static uint64_t part_seed;
static char under_way[400];

/* ---- reports */

/* Says what is tried from now on, and from which seed. */
__attribute__((format(printf, 2, 3))) static void set_part(uint64_t seed, const char *format, ...)
{
    va_list values;
    va_start(values, format);
    vsnprintf(part, sizeof part, format, values);
    va_end(values);
    part_seed = seed;
}

static void print_hex(const char *name, const uint8_t *bytes)
{
    printf("  %s ", name);
    for (int i = 0; i < DIGEST; i++)
        printf("%02x", bytes[i]);
    printf("\n");
}

static _Noreturn void fail(const char *what, const uint8_t *got, const uint8_t *want)
{
    printf("sha256_test: FAILED: %s\n%s", what, under_way);
    if (got)
        print_hex("got ", got);
    if (want)
        print_hex("want", want);
    fflush(stdout);
    _exit(1);
}

static _Noreturn void guarded_stop(const char *why, const char *hint)
{
    char text[200];
    snprintf(text, sizeof text, "the buffers: %s; %s", why, hint);
    fail(text, NULL, NULL);
}

/* ---- pseudo-random bytes (splitmix64) */

static uint64_t next_random(uint64_t *state)
{
    uint64_t z = *state += 0x9e3779b97f4a7c15;
    z = (z ^ z >> 30) * 0xbf58476d1ce4e5b9;
    z = (z ^ z >> 27) * 0x94d049bb133111eb;
    return z ^ z >> 31;
}

static void fill_random(uint64_t *state, uint8_t *bytes, size_t len)
{
    for (size_t i = 0; i < len; i++)
        bytes[i] = (uint8_t)next_random(state);
}

/* ---- one call */

/* Holds the bytes at and around the digest to what they must be: want, or NULL for as before. */
static void check_digest(const uint8_t *digest, const uint8_t before[DIGEST], const uint8_t *want)
{
    ptrdiff_t at;
    if (!want && memcmp(digest, before, DIGEST) != 0)
        fail("the digest is not as it was", digest, before);
    if (want && memcmp(digest, want, DIGEST) != 0)
        fail("a wrong digest", digest, want);
    if (guarded_changed(&digest_room, DIGEST, &at)) {
        char text[80];
        snprintf(text, sizeof text, "byte %td of the digest (it has %d) was written", at, DIGEST);
        fail(text, NULL, NULL);
    }
}

/*
 * Calls the function once on a copy of the message, or NULL for NULL, and checks the number
 * returned and the digest: want, or NULL where it must stay as it was.
 */
static void check_call(const uint8_t *message, size_t len, enum guarded_side side,
                       uint32_t want_number, const uint8_t *want)
{
    uint8_t before[DIGEST];
    const uint8_t *lent = message ? guarded_lend(&message_room, message, len, side) : NULL;
    uint8_t *digest = guarded_offer(&digest_room, DIGEST, side, checks / 2 % ALIGNMENTS);
    memcpy(before, digest, DIGEST);

    snprintf(under_way, sizeof under_way, "  %s, seed %" PRIu64 ", length %zu, %s\n", part,
             part_seed, len, lent ? side_names[side] : "the message NULL");
    uint32_t number = hirelog_sha256(lent, len, digest);

    if (number != want_number) {
        char text[80];
        snprintf(text, sizeof text, "number %" PRIu32 " returned, not %" PRIu32, number,
                 want_number);
        fail(text, NULL, NULL);
    }
    check_digest(digest, before, want);
    checks++;
}

/* The same message before an unreadable page and after one. */
static void check_both(const uint8_t *message, size_t len, uint32_t want_number,
                       const uint8_t *want)
{
    check_call(message, len, PAGE_AFTER, want_number, want);
    check_call(message, len, PAGE_BEFORE, want_number, want);
}

static void check_with_openssl(const uint8_t *message, size_t len)
{
    uint8_t want[DIGEST];
    if (!SHA256(message, len, want))
        fail("OpenSSL gave no digest", NULL, NULL);
    check_both(message, len, HIRELOG_OK, want);
}

/* ---- the parts */

/* Takes a line apart into message and digest; the message's length, or -1 if it is not that. */
static long read_vector(char *line, uint8_t *message, size_t room_len, uint8_t digest[DIGEST])
{
    char *rest = NULL;
    char *hex_message = strtok_r(line, " \n", &rest);
    char *hex_digest = strtok_r(NULL, " \n", &rest);
    if (!hex_message || !hex_digest || strtok_r(NULL, " \n", &rest) ||
        decode_hex(hex_digest, digest, DIGEST) != DIGEST)
        return -1;
    return decode_hex(hex_message, message, room_len);
}

static void check_vectors(const char *path)
{
    static uint8_t message[1 << 16];
    uint8_t want[DIGEST];
    const char *wanted = NULL;
    struct lines lines;
    open_lines(&lines, path);
    while (!wanted && next_line(&lines)) {
        long len = read_vector(lines.text, message, sizeof message, want);
        set_part(0, "%s line %lu", path, lines.number);
        if (len < 0)
            wanted = "a message and a digest";
        else
            check_both(message, (size_t)len, HIRELOG_OK, want);
    }
    const char *problem = close_lines(&lines, wanted);
    if (problem) {
        under_way[0] = '\0';
        fail(problem, NULL, NULL);
    }
}

static void check_every_length(void)
{
    uint64_t random = 300;
    set_part(random, "every length");
    uint8_t message[300];
    for (size_t len = 0; len <= sizeof message; len++) {
        fill_random(&random, message, len);
        check_with_openssl(message, len);
    }
}

static void check_null(void)
{
    uint8_t want[DIGEST];
    set_part(0, "no message");
    if (!SHA256((const uint8_t *)"", 0, want))
        fail("OpenSSL gave no digest", NULL, NULL);
    check_call(NULL, 0, PAGE_AFTER, HIRELOG_OK, want);
    check_call(NULL, 0, PAGE_BEFORE, HIRELOG_OK, want);
}

/* The longest message, and one byte more. */
static void check_limit(void)
{
    uint64_t random = 16;
    set_part(random, "the limit");
    size_t max = HIRELOG_MESSAGE_MAX;
    uint8_t *message = malloc(max + 1);
    if (!message)
        fail("no memory for a long message", NULL, NULL);
    fill_random(&random, message, max + 1);
    check_with_openssl(message, max);
    check_both(message, max + 1, HIRELOG_LONG_MESSAGE, NULL);
    free(message);
}

static void check_random(const char *name, uint64_t seed, int count)
{
    set_part(seed, "%s", name);
    uint64_t random = seed;
    uint8_t message[4096];
    for (int i = 0; i < count; i++) {
        size_t len = next_random(&random) % (sizeof message + 1);
        fill_random(&random, message, len);
        check_with_openssl(message, len);
    }
}

/* The number in SEED, or a new one. */
static uint64_t fresh_seed(void)
{
    const char *text = getenv("SEED");
    uint64_t seed;
    if (text) {
        char *end;
        seed = strtoull(text, &end, 10);
        if (*text == '\0' || *end != '\0')
            fail("SEED is not a number", NULL, NULL);
    } else if (getrandom(&seed, sizeof seed, 0) != (ssize_t)sizeof seed) {
        fail("no fresh seed", NULL, NULL);
    }
    return seed;
}

int main(int argc, char **argv)
{
    if (argc < 2) {
        printf("usage: sha256_test VECTORS...\n");
        return 1;
    }
    guarded_watch("sha256_test", under_way);
    guarded_make(&message_room, "message", (size_t)HIRELOG_MESSAGE_MAX + 1);
    guarded_make(&digest_room, "digest", DIGEST + ALIGNMENTS - 1);
    uint64_t seed = fresh_seed();
    printf("sha256_test: fresh seed %" PRIu64 " (again: SEED=%" PRIu64 ")\n", seed, seed);
    fflush(stdout);

    for (int i = 1; i < argc; i++)
        check_vectors(argv[i]);
    check_every_length();
    check_null();
    check_limit();
    check_random("random messages, fixed seed", 20240701, 4000);
    check_random("random messages, fresh seed", seed, 500);

    printf("sha256_test: %lu checks passed\n", checks);
    return fflush(stdout) == 0 ? 0 : 1;
}
