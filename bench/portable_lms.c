/*
 * The check of an LMS signature (RFC 8554) in portable C, over portable_sha256.
 *
 * Nearly all of its time goes to the steps of the chains. The 55 bytes that a step hashes fill one
 * block with their padding, so each chain has its block ready, and a step rewrites the step's
 * number and the value, and takes the block once.
 */
#include "portable_lms.h"
#include "big_endian.h"
#include "portable_sha256.h"

#include <string.h>

enum { HASH = 32, ID = 16, PREFIX = ID + 4 + 2, KEY = 8 + ID + HASH };

/* RFC 8554, 7.1: what tells the kinds of hashed strings apart. */
enum { D_PBLC = 0x8080, D_MESG = 0x8181, D_LEAF = 0x8282, D_INTR = 0x8383 };

/* RFC 8554, 4.1: digit width, number of chains and shift of the sum, of types 1 to 4. */
struct one_time {
    unsigned w, p, ls;
};
static const struct one_time one_times[] = {{1, 265, 7}, {2, 133, 6}, {4, 67, 4}, {8, 34, 0}};

/* ---- SHA-256 of a string that is given in parts */

struct hash {
    uint32_t state[8];
    uint8_t block[64]; /* the first len % 64 bytes wait here */
    uint64_t len;
    uint64_t *blocks; /* counts the blocks taken */
};

static void take_blocks(struct hash *hash, const uint8_t *block, size_t count)
{
    portable_sha256_blocks(hash->state, block, count);
    *hash->blocks += count;
}

static void hash_bytes(struct hash *hash, const uint8_t *bytes, size_t len)
{
    size_t at = hash->len % 64;
    hash->len += len;
    if (at + len >= 64 && at > 0) {
        memcpy(hash->block + at, bytes, 64 - at);
        take_blocks(hash, hash->block, 1);
        bytes += 64 - at;
        len -= 64 - at;
        at = 0;
    }
    if (len >= 64) {
        take_blocks(hash, bytes, len / 64);
        bytes += len / 64 * 64;
        len %= 64;
    }
    if (len > 0)
        memcpy(hash->block + at, bytes, len);
}

/* The strings of RFC 8554 all begin with the key's identifier and two numbers. */
static void write_prefix(uint8_t prefix[PREFIX], const uint8_t id[ID], uint32_t number,
                         unsigned kind)
{
    memcpy(prefix, id, ID);
    write_u32(prefix + ID, number);
    write_u16(prefix + ID + 4, (uint16_t)kind);
}

static void hash_start(struct hash *hash, const uint8_t id[ID], uint32_t number, unsigned kind,
                       uint64_t *blocks)
{
    memcpy(hash->state, portable_sha256_initial, sizeof hash->state);
    write_prefix(hash->block, id, number, kind);
    hash->len = PREFIX;
    hash->blocks = blocks;
}

static void write_state(const uint32_t state[8], uint8_t value[HASH])
{
    for (int i = 0; i < 8; i++)
        write_u32(value + 4 * i, state[i]);
}

/* FIPS 180-4, 5.1.1: a one bit, zeros, and the length in bits. */
static void hash_end(struct hash *hash, uint8_t value[HASH])
{
    size_t at = hash->len % 64;
    hash->block[at++] = 0x80;
    if (at > 56) {
        memset(hash->block + at, 0, 64 - at);
        take_blocks(hash, hash->block, 1);
        at = 0;
    }
    memset(hash->block + at, 0, 56 - at);
    write_u32(hash->block + 56, (uint32_t)(hash->len >> 29));
    write_u32(hash->block + 60, (uint32_t)(hash->len << 3));
    take_blocks(hash, hash->block, 1);
    write_state(hash->state, value);
}

/* ---- the one-time signature */

/* RFC 8554, 3.1.3: digit i, of w bits. */
static unsigned digit(const uint8_t *bytes, unsigned i, unsigned w)
{
    unsigned bit = i * w;
    return (unsigned)bytes[bit / 8] >> (8 - w - bit % 8) & ((1u << w) - 1);
}

/* RFC 8554, 4.4: writes the sum that goes with the message's hash after it. */
static void append_sum(uint8_t digits[HASH + 2], const struct one_time *type)
{
    unsigned sum = 0;
    for (unsigned i = 0; i < 8 * HASH / type->w; i++)
        sum += (1u << type->w) - 1 - digit(digits, i, type->w);
    sum <<= type->ls;
    write_u16(digits + HASH, (uint16_t)sum);
}

/*
 * Steps from to end - 1 of a chain. The block holds the prefix with the chain's number, the step's
 * number, the value, and the padding of 55 bytes; afterwards the value is the chain's end.
 */
static void run_chain(uint8_t block[64], unsigned from, unsigned end, uint64_t *blocks)
{
    for (unsigned step = from; step < end; step++) {
        uint32_t state[8];
        block[PREFIX] = (uint8_t)step;
        memcpy(state, portable_sha256_initial, sizeof state);
        portable_sha256_blocks(state, block, 1);
        write_state(state, block + PREFIX + 1);
        ++*blocks;
    }
}

/* RFC 8554, algorithm 4b, step 3: the public key that the one-time signature belongs to. */
static void one_time_key(const struct one_time *type, const uint8_t id[ID], uint32_t leaf,
                         const uint8_t *message, size_t message_len, const uint8_t *random,
                         const uint8_t *values, uint8_t key[HASH],
                         struct portable_lms_blocks *blocks)
{
    uint8_t digits[HASH + 2], block[64] = {0};
    struct hash hash;

    hash_start(&hash, id, leaf, D_MESG, &blocks->message);
    hash_bytes(&hash, random, HASH);
    hash_bytes(&hash, message, message_len);
    hash_end(&hash, digits);
    append_sum(digits, type);

    block[PREFIX + 1 + HASH] = 0x80;
    write_u32(block + 60, 8 * (PREFIX + 1 + HASH));
    hash_start(&hash, id, leaf, D_PBLC, &blocks->public_key);
    for (unsigned i = 0; i < type->p; i++) {
        write_prefix(block, id, leaf, i);
        memcpy(block + PREFIX + 1, values + (size_t)HASH * i, HASH);
        run_chain(block, digit(digits, i, type->w), (1u << type->w) - 1, &blocks->chains);
        hash_bytes(&hash, block + PREFIX + 1, HASH);
    }
    hash_end(&hash, key);
}

/* ---- the tree */

/* RFC 8554, algorithm 6a, step 4: from the leaf's one-time key to the root. */
static void root(const uint8_t id[ID], uint32_t node, const uint8_t *path, uint8_t value[HASH],
                 uint64_t *blocks)
{
    struct hash hash;
    hash_start(&hash, id, node, D_LEAF, blocks);
    hash_bytes(&hash, value, HASH);
    hash_end(&hash, value);
    for (; node > 1; node /= 2, path += HASH) {
        hash_start(&hash, id, node / 2, D_INTR, blocks);
        hash_bytes(&hash, node % 2 == 1 ? path : value, HASH);
        hash_bytes(&hash, node % 2 == 1 ? value : path, HASH);
        hash_end(&hash, value);
    }
}

/*
 * A key is the tree type, the one-time type, the identifier and the root. A signature is the leaf's
 * number, the one-time signature (the type, random bytes, a value for each chain), the tree type,
 * and the path from the leaf to the root.
 */
int portable_lms_good(const uint8_t *key, size_t key_len, const uint8_t *message,
                      size_t message_len, const uint8_t *signature, size_t signature_len,
                      struct portable_lms_blocks *blocks)
{
    memset(blocks, 0, sizeof *blocks);
    if (key_len != KEY)
        return 0;
    uint32_t tree_type = read_u32(key), one_time_type = read_u32(key + 4);
    if (tree_type < 5 || tree_type > 9 || one_time_type < 1 || one_time_type > 4)
        return 0;
    const struct one_time *type = &one_times[one_time_type - 1];
    uint32_t height = 5 * (tree_type - 4);
    size_t tree_at = 8 + HASH + (size_t)HASH * type->p;
    if (signature_len != tree_at + 4 + (size_t)HASH * height)
        return 0;
    uint32_t leaf = read_u32(signature);
    if (read_u32(signature + 4) != one_time_type || read_u32(signature + tree_at) != tree_type ||
        leaf >> height != 0)
        return 0;

    const uint8_t *id = key + 8;
    uint8_t value[HASH];
    one_time_key(type, id, leaf, message, message_len, signature + 8, signature + 8 + HASH, value,
                 blocks);
    root(id, (1u << height) + leaf, signature + tree_at + 4, value, &blocks->tree);
    return memcmp(value, key + 8 + ID, HASH) == 0;
}
