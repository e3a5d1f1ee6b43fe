/*
 * A libFuzzer harness of hirelog_lms_check; tests/fuzz/run builds it and runs it.
 *
 * An input is the key's length (1 byte), the message's (2 bytes, big-endian), how the parts are
 * lent (1 byte, parts.h), then key, message and signature. A length that is too large takes what
 * there is. A mutation changes one of the parts, or gives key and signature types that are known
 * and the signature their length, or takes another leaf number, and writes the lengths anew.
 *
 * Number, leaf and steps have to be those of the separately written auditor, whose branches lead
 * the fuzzer on, with the types of the signatures that lead to a root. Such a signature is hardly
 * ever good once something has been changed, so the auditor's root is then put into the key: now it
 * has to be good, which it is only if the library comes to the same root, and by the leaf that it
 * begins with; and with one bit of the root changed, or with a byte more or fewer of key or
 * signature, it has to be bad, and beside that the leaf is 0. The root is nothing to the steps, and
 * a wrong length has none (document 02, W7).
 */
#define _GNU_SOURCE
#include "big_endian.h"
#include "parts.h"

enum { KEY, MESSAGE, SIGNATURE };
enum { HEAD = 4, KEY_SIZE = HIRELOG_LMS_KEY_SIZE, ROOT_AT = 24 };

/* What libFuzzer counts as new beside the branches. */
__attribute__((used, section("__libfuzzer_extra_counters"))) static volatile uint8_t
    seen[5 * 4 * 2];

struct input {
    const uint8_t *parts[PARTS];
    size_t lens[PARTS];
    uint8_t how;
};

/* ---- inputs */

static int read_input(const uint8_t *data, size_t size, struct input *input)
{
    if (size < HEAD)
        return 0;
    size_t left = size - HEAD;
    input->how = data[3];
    input->lens[KEY] = take(data[0], &left);
    input->lens[MESSAGE] = take(read_u16(data + 1), &left);
    input->lens[SIGNATURE] = left;
    input->parts[KEY] = data + HEAD;
    input->parts[MESSAGE] = input->parts[KEY] + input->lens[KEY];
    input->parts[SIGNATURE] = input->parts[MESSAGE] + input->lens[MESSAGE];
    return 1;
}

/* Writes the input, if there is room for it; its size. */
static size_t write_input(const struct input *input, uint8_t *data, size_t size, size_t max_size)
{
    size_t at = HEAD;
    if (HEAD + input->lens[KEY] + input->lens[MESSAGE] + input->lens[SIGNATURE] > max_size)
        return size;
    data[0] = (uint8_t)input->lens[KEY];
    write_u16(data + 1, (uint16_t)input->lens[MESSAGE]);
    data[3] = input->how;
    for (int i = 0; i < PARTS; i++) {
        memcpy(data + at, input->parts[i], input->lens[i]);
        at += input->lens[i];
    }
    return at;
}

/* Known types in key and signature, a leaf number of that tree, and the length that they give. */
static void give_types(uint8_t *key, uint8_t *signature, size_t *signature_len, unsigned seed)
{
    static const size_t chains[4] = {265, 133, 67, 34};
    unsigned one_time = seed % 4, tree = seed / 4 % 5, height = 5 * (tree + 1);
    size_t type_at = 8 + 32 * (chains[one_time] + 1);
    write_u32(key, 5 + tree);
    write_u32(key + 4, 1 + one_time);
    write_u32(signature, seed / 20 & ((1u << height) - 1));
    write_u32(signature + 4, 1 + one_time);
    write_u32(signature + type_at, 5 + tree);
    *signature_len = type_at + 4 + 32 * height;
}

size_t LLVMFuzzerCustomMutator(uint8_t *data, size_t size, size_t max_size, unsigned seed)
{
    static uint8_t copy[ROOM], parts[PARTS][ROOM];
    struct input input;
    if (size > ROOM / 2 || max_size > ROOM / 2 || size < HEAD)
        return LLVMFuzzerMutate(data, size, max_size);
    memcpy(copy, data, size);
    read_input(copy, size, &input);
    memset(parts, 0, sizeof parts); /* what a longer key or signature ends in */
    for (int i = 0; i < PARTS; i++) {
        memcpy(parts[i], input.parts[i], input.lens[i]);
        input.parts[i] = parts[i];
    }
    unsigned choice = seed % 16;
    seed /= 16;
    if (choice == 0) {
        input.how = (uint8_t)seed;
    } else if (choice == 1) {
        input.lens[KEY] = KEY_SIZE;
        give_types(parts[KEY], parts[SIGNATURE], &input.lens[SIGNATURE], seed);
    } else if (choice == 2) {
        write_u32(parts[SIGNATURE], seed % 2 ? seed / 2 : 1u << seed / 2 % 32);
    } else {
        int which = choice < 5 ? KEY : choice < 9 ? MESSAGE : SIGNATURE;
        size_t others = size - input.lens[which], most = max_size - others;
        if (which == KEY && most > UINT8_MAX)
            most = UINT8_MAX;
        if (others < max_size && input.lens[which] <= most)
            input.lens[which] = LLVMFuzzerMutate(parts[which], input.lens[which], most);
    }
    return write_input(&input, data, size, max_size);
}

/* ---- what must hold */

static struct hirelog_lms_answer library(const struct input *input)
{
    const uint8_t *lent[PARTS];
    lend(input->parts, input->lens, input->how, lent);
    return hirelog_lms_check(lent[KEY], input->lens[KEY], lent[MESSAGE], input->lens[MESSAGE],
                             lent[SIGNATURE], input->lens[SIGNATURE]);
}

/* Whether the library answers so. */
static int answers(const struct input *input, uint32_t number, uint32_t leaf, uint32_t steps)
{
    struct hirelog_lms_answer answer = library(input);
    return answer.number == number && answer.leaf == leaf && answer.steps == steps;
}

/*
 * Of a signature that leads to this root, in so many steps: good for it, and bad for another or in
 * other lengths.
 */
static void check_root(const struct input *input, const uint8_t root[32], uint32_t steps)
{
    static uint8_t key[KEY_SIZE + 1], signature[ROOM];
    struct input other = *input;
    size_t bit = input->lens[MESSAGE] + input->parts[SIGNATURE][3] + input->how;
    memcpy(key, input->parts[KEY], KEY_SIZE);
    memcpy(key + ROOT_AT, root, 32);
    memcpy(signature, input->parts[SIGNATURE], input->lens[SIGNATURE]);
    other.parts[KEY] = key;
    other.parts[SIGNATURE] = signature;
    if (!answers(&other, HIRELOG_OK, read_u32(signature), steps))
        fail("another root than the one that the auditor comes to, or another leaf or other steps");
    for (int which = KEY; which <= SIGNATURE; which += SIGNATURE - KEY) {
        other.lens[which]++;
        int longer = answers(&other, HIRELOG_BAD_SIGNATURE, 0, 0);
        other.lens[which] -= 2;
        int shorter = answers(&other, HIRELOG_BAD_SIGNATURE, 0, 0);
        other.lens[which]++;
        if (!longer || !shorter)
            fail("good with a byte more or fewer, or with a leaf or steps");
    }
    key[ROOT_AT + bit / 8 % 32] ^= (uint8_t)(1 << bit % 8);
    if (!answers(&other, HIRELOG_BAD_SIGNATURE, 0, steps))
        fail("good for a root with a bit changed, or with a leaf or other steps");
}

int LLVMFuzzerTestOneInput(const uint8_t *data, size_t size)
{
    struct input input;
    uint8_t root[32];
    if (!read_input(data, size, &input))
        return 0;
    struct hirelog_lms_answer right =
        auditor_lms_check(input.parts[KEY], input.lens[KEY], input.parts[MESSAGE],
                          input.lens[MESSAGE], input.parts[SIGNATURE], input.lens[SIGNATURE]);
    if (!answers(&input, right.number, right.leaf, right.steps))
        fail("another number, leaf or count of steps than the auditor's");
    if (auditor_lms_root(input.parts[KEY], input.lens[KEY], input.parts[MESSAGE],
                         input.lens[MESSAGE], input.parts[SIGNATURE], input.lens[SIGNATURE],
                         root)) {
        int tree = input.parts[KEY][3] - 5, one_time = input.parts[KEY][7] - 1;
        seen[2 * (4 * tree + one_time) + (right.number == HIRELOG_OK)] = 1;
        check_root(&input, root, right.steps);
    }
    return 0;
}
