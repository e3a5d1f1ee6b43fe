/*
 * Runs hirelog_lms_check and holds what it answers to published vectors.
 *
 *   lms_test VECTORS...
 *
 * lms_vectors.h has the form of a vector file. The leaf of a good signature has to be the number
 * that it begins with and, for those of RFC 8554, the one that is printed there; beside every other
 * number the leaf is 0. The steps, of a bad signature too, have to be those that are counted here
 * from the digits of the message's hash, which is OpenSSL's; they are 0 where the form is wrong.
 * Of the first good signature then every shorter length and a longer one are tried, of the key as
 * well, and a change of each byte; NULL; and the longest message and one byte more. The first
 * failure is printed, and the exit status is then 1.
 *
 * In every call an unreadable page stands right after the key, the message and the signature, or
 * right before each, and none of the three can be written.
 */
#define _GNU_SOURCE
#include "big_endian.h"
#include "guarded.h"
#include "hirelog.h"
#include "lms_vectors.h"

#include <openssl/sha.h>

#include <inttypes.h>
#include <stdio.h>
#include <stdlib.h>
#include <string.h>
#include <unistd.h>

enum { KEY, MESSAGE, SIGNATURE, INPUTS };

static const char *const input_names[] = {"key", "message", "signature"};
static const char *const side_names[] = {
    "an unreadable page right after each",
    "an unreadable page right before each",
};

/* An input of a call. Where bytes is NULL, so is the pointer of the call. */
struct input {
    const uint8_t *bytes;
    size_t len;
};

/* RFC 8554, appendix F: the leaf numbers q in test cases 1 and 2, of both levels, by the key's I. */
static const struct {
    const char *identifier;
    uint32_t leaf;
} published[] = {
    {"61a5d57d37f5e46bfb7520806b07a1b8", 5},
    {"d2f14ff6346af964569f7d6cb880a1b6", 10},
    {"d08fabd4a2091ff0a8cb4ed834e74534", 3},
    {"215f83b7ccb9acbcd08db97b0d04dc2b", 4},
};
enum { IDENTIFIER_AT = 8, IDENTIFIER_SIZE = 16 };

/* RFC 8554, table 1: digit bits, chains and checksum shift of the one-time types, from 1 on. */
static const struct one_time {
    unsigned w, chains, shift;
} one_time_types[] = {{1, 265, 7}, {2, 133, 6}, {4, 67, 4}, {8, 34, 0}};
enum { HASH = HIRELOG_DIGEST_SIZE };

static struct guarded rooms[INPUTS];
static struct lms_vector first_good;
static unsigned long checks;       /* calls whose every outcome was checked */
static unsigned long leaves_known; /* good signatures whose leaf number is published */

/* What is being tried, for a failure's report. */
static char part[100] = "set-up";
static char under_way[400];

/* ---- reports */

static _Noreturn void fail(const char *what)
{
    printf("lms_test: FAILED: %s\n%s", what, under_way);
    fflush(stdout);
    _exit(1);
}

static _Noreturn void guarded_stop(const char *why, const char *hint)
{
    char text[200];
    snprintf(text, sizeof text, "the buffers: %s; %s", why, hint);
    fail(text);
}

/* ---- the steps of a check (document 02, W7) */

/* The key's one-time type, or NULL if key and signature are not of the form of their types. */
static const struct one_time *form_of(const struct input *key, const struct input *signature)
{
    if (key->len != HIRELOG_LMS_KEY_SIZE)
        return NULL;
    uint32_t tree = read_u32(key->bytes), one_time = read_u32(key->bytes + 4);
    if (tree < 5 || tree > 9 || one_time < 1 || one_time > 4)
        return NULL;
    unsigned height = 5 * (tree - 4);
    const struct one_time *type = &one_time_types[one_time - 1];
    size_t type_at = 8 + HASH * (1 + (size_t)type->chains);
    if (signature->len != type_at + 4 + (size_t)HASH * height)
        return NULL;
    int right = read_u32(signature->bytes) < 1u << height &&
                read_u32(signature->bytes + 4) == one_time &&
                read_u32(signature->bytes + type_at) == tree;
    return right ? type : NULL;
}

/* RFC 8554, 3.1.3: coef(bytes, i, w). */
static uint32_t coef(const uint8_t *bytes, unsigned i, unsigned w)
{
    return bytes[i * w / 8] >> (8 - (w * (i % (8 / w)) + w)) & ((1u << w) - 1);
}

/* The sum of (2^w - 1) - coef(bytes, i, w) over the first digits. */
static uint32_t distances(const uint8_t *bytes, unsigned digits, unsigned w)
{
    uint32_t sum = 0;
    for (unsigned i = 0; i < digits; i++)
        sum += (1u << w) - 1 - coef(bytes, i, w);
    return sum;
}

/* The steps of a check of the inputs: each chain goes from its digit to 2^w - 1 (RFC 8554, 4.6). */
static uint32_t steps_of(const struct input inputs[INPUTS])
{
    static uint8_t hashed[54 + HIRELOG_MESSAGE_MAX]; /* I, q, D_MESG, C and the message */
    uint8_t digits[HASH + 2];
    const struct one_time *type = form_of(&inputs[KEY], &inputs[SIGNATURE]);
    if (!type)
        return 0;
    memcpy(hashed, inputs[KEY].bytes + IDENTIFIER_AT, IDENTIFIER_SIZE);
    memcpy(hashed + 16, inputs[SIGNATURE].bytes, 4);
    write_u16(hashed + 20, 0x8181);
    memcpy(hashed + 22, inputs[SIGNATURE].bytes + 8, HASH);
    if (inputs[MESSAGE].len > 0)
        memcpy(hashed + 54, inputs[MESSAGE].bytes, inputs[MESSAGE].len);
    if (!SHA256(hashed, 54 + inputs[MESSAGE].len, digits))
        fail("OpenSSL gave no digest");
    /* The checksum (RFC 8554, algorithm 2) stands after the hash. */
    uint32_t checksum = distances(digits, 8 * HASH / type->w, type->w);
    write_u16(digits + HASH, (uint16_t)(checksum << type->shift));
    return distances(digits, type->chains, type->w);
}

/* ---- one call */

static void make_rooms(void)
{
    static const size_t sizes[INPUTS] = {sizeof first_good.key, (size_t)HIRELOG_MESSAGE_MAX + 1,
                                         sizeof first_good.signature + 1};
    for (int i = 0; i < INPUTS; i++)
        guarded_make(&rooms[i], input_names[i], sizes[i]);
}

/* Calls the function once on copies of the inputs and checks what is returned. */
static void check_call(const struct input inputs[INPUTS], enum guarded_side side,
                       struct hirelog_lms_answer want)
{
    const uint8_t *lent[INPUTS];
    for (int i = 0; i < INPUTS; i++) {
        const uint8_t *copy = guarded_lend(&rooms[i], inputs[i].bytes, inputs[i].len, side);
        lent[i] = inputs[i].bytes ? copy : NULL;
    }

    snprintf(under_way, sizeof under_way, "  %s, lengths %zu, %zu and %zu, %s\n", part,
             inputs[KEY].len, inputs[MESSAGE].len, inputs[SIGNATURE].len, side_names[side]);
    struct hirelog_lms_answer answer =
        hirelog_lms_check(lent[KEY], inputs[KEY].len, lent[MESSAGE], inputs[MESSAGE].len,
                          lent[SIGNATURE], inputs[SIGNATURE].len);

    if (answer.number != want.number || answer.leaf != want.leaf || answer.steps != want.steps) {
        char text[160];
        snprintf(text, sizeof text,
                 "number %" PRIu32 ", leaf %" PRIu32 " and steps %" PRIu32
                 " returned, not %" PRIu32 ", %" PRIu32 " and %" PRIu32,
                 answer.number, answer.leaf, answer.steps, want.number, want.leaf, want.steps);
        fail(text);
    }
    checks++;
}

/* The same inputs before an unreadable page each, and after one. */
static void check_both(const struct input inputs[INPUTS], struct hirelog_lms_answer want)
{
    check_call(inputs, PAGE_AFTER, want);
    check_call(inputs, PAGE_BEFORE, want);
}

static void check_good(const struct input inputs[INPUTS], uint32_t leaf)
{
    check_both(inputs, (struct hirelog_lms_answer){HIRELOG_OK, leaf, steps_of(inputs)});
}

static void check_bad(const struct input inputs[INPUTS])
{
    check_both(inputs, (struct hirelog_lms_answer){HIRELOG_BAD_SIGNATURE, 0, steps_of(inputs)});
}

/* Without leaf and steps. */
static void check_other(const struct input inputs[INPUTS], uint32_t number)
{
    check_both(inputs, (struct hirelog_lms_answer){number, 0, 0});
}

/* The leaf number that a good signature begins with, held to the published one. */
static uint32_t leaf_of(const struct lms_vector *vector)
{
    uint32_t leaf = read_u32(vector->signature);
    for (size_t i = 0; i < sizeof published / sizeof *published; i++) {
        uint8_t identifier[IDENTIFIER_SIZE];
        decode_hex(published[i].identifier, identifier, sizeof identifier);
        if (memcmp(vector->key + IDENTIFIER_AT, identifier, sizeof identifier) != 0)
            continue;
        if (leaf != published[i].leaf) {
            snprintf(under_way, sizeof under_way, "  %s\n", part);
            fail("the signature begins with another leaf number than the one published");
        }
        leaves_known++;
    }
    return leaf;
}

/* ---- the parts */

static void set_inputs(struct input inputs[INPUTS], const struct lms_vector *vector)
{
    inputs[KEY] = (struct input){vector->key, vector->key_len};
    inputs[MESSAGE] = (struct input){vector->message, vector->message_len};
    inputs[SIGNATURE] = (struct input){vector->signature, vector->signature_len};
}

static void check_vector(const struct lms_vector *vector)
{
    struct input inputs[INPUTS];
    snprintf(part, sizeof part, "%s", vector->name);
    set_inputs(inputs, vector);
    if (!vector->good) {
        check_bad(inputs);
        return;
    }
    check_good(inputs, leaf_of(vector));
    if (first_good.name[0] == '\0')
        first_good = *vector;
}

/* Every length of the key or the signature up to one byte more than the right one. */
static void check_every_length(int which)
{
    struct input inputs[INPUTS];
    set_inputs(inputs, &first_good);
    size_t right = inputs[which].len;
    snprintf(part, sizeof part, "every length of the %s", input_names[which]);
    for (size_t len = 0; len <= right + 1; len++) {
        inputs[which].len = len;
        if (len == right)
            check_good(inputs, read_u32(first_good.signature));
        else
            check_other(inputs, HIRELOG_BAD_SIGNATURE);
    }
}

/* A change of each byte. */
static void check_every_byte(int which)
{
    static uint8_t changed[sizeof first_good.signature];
    struct input inputs[INPUTS];
    set_inputs(inputs, &first_good);
    memcpy(changed, inputs[which].bytes, inputs[which].len);
    inputs[which].bytes = changed;
    for (size_t i = 0; i < inputs[which].len; i++) {
        uint8_t bit = (uint8_t)(1 << i % 8);
        snprintf(part, sizeof part, "byte %zu of the %s changed", i, input_names[which]);
        changed[i] ^= bit;
        check_call(inputs, PAGE_AFTER,
                   (struct hirelog_lms_answer){HIRELOG_BAD_SIGNATURE, 0, steps_of(inputs)});
        changed[i] ^= bit;
    }
}

/* NULL with length 0, for each set of inputs. */
static void check_null(void)
{
    snprintf(part, sizeof part, "NULL");
    for (int set = 1; set < 1 << INPUTS; set++) {
        struct input inputs[INPUTS];
        set_inputs(inputs, &first_good);
        for (int i = 0; i < INPUTS; i++)
            if (set >> i & 1)
                inputs[i] = (struct input){NULL, 0};
        check_bad(inputs);
    }
}

/* The longest message, and one byte more: too long is the answer whatever the key and signature. */
static void check_limit(void)
{
    struct input inputs[INPUTS];
    size_t max = HIRELOG_MESSAGE_MAX;
    uint8_t *message = malloc(max + 1);
    snprintf(part, sizeof part, "the limit");
    if (!message)
        fail("no memory for a long message");
    for (size_t i = 0; i <= max; i++)
        message[i] = (uint8_t)(i * 167 + (i >> 8) * 13);

    set_inputs(inputs, &first_good);
    inputs[MESSAGE] = (struct input){message, max};
    check_bad(inputs);
    inputs[MESSAGE].len = max + 1;
    check_other(inputs, HIRELOG_LONG_MESSAGE);
    inputs[SIGNATURE].len = 0;
    check_other(inputs, HIRELOG_LONG_MESSAGE);
    inputs[KEY].len--;
    check_other(inputs, HIRELOG_LONG_MESSAGE);
    inputs[SIGNATURE].len = first_good.signature_len;
    check_other(inputs, HIRELOG_LONG_MESSAGE);
    inputs[KEY] = (struct input){message, first_good.key_len}; /* of no known type */
    check_other(inputs, HIRELOG_LONG_MESSAGE);
    inputs[KEY] = inputs[SIGNATURE] = (struct input){NULL, 0};
    check_other(inputs, HIRELOG_LONG_MESSAGE);
    free(message);
}

int main(int argc, char **argv)
{
    if (argc < 2) {
        printf("usage: lms_test VECTORS...\n");
        return 1;
    }
    guarded_watch("lms_test", under_way);
    make_rooms();

    for (int i = 1; i < argc; i++) {
        const char *problem = for_each_lms_vector(argv[i], check_vector);
        if (problem) {
            under_way[0] = '\0';
            fail(problem);
        }
    }
    if (first_good.name[0] == '\0') {
        under_way[0] = '\0';
        fail("no good signature in the vector files");
    }
    if (leaves_known == 0) {
        under_way[0] = '\0';
        fail("no signature of RFC 8554 in the vector files");
    }
    check_every_length(KEY);
    check_every_length(SIGNATURE);
    check_every_byte(KEY);
    check_every_byte(MESSAGE);
    check_every_byte(SIGNATURE);
    check_null();
    check_limit();

    printf("lms_test: %lu checks passed, %lu leaf numbers as RFC 8554 prints them\n", checks,
           leaves_known);
    return fflush(stdout) == 0 ? 0 : 1;
}
