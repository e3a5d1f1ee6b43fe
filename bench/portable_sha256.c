/*
 * SHA-256 (FIPS 180-4) in portable C: no intrinsics, no assembly.
 *
 * Rounds are written out by sixteen: the first, then a loop of three. The variables rotate by the
 * order of the arguments and not by moves, and the schedule is kept as its last 16 words. Of the
 * forms tried with gcc 12 -O3 (a 64-word schedule, all 64 rounds written out, other formulas for
 * the majority) none was faster beyond the noise of measuring.
 */
#include "big_endian.h"
#include "portable_sha256.h"

#include <string.h>

/* FIPS 180-4, 4.2.2 */
static const uint32_t K[64] = {
    0x428a2f98, 0x71374491, 0xb5c0fbcf, 0xe9b5dba5, 0x3956c25b, 0x59f111f1, 0x923f82a4, 0xab1c5ed5,
    0xd807aa98, 0x12835b01, 0x243185be, 0x550c7dc3, 0x72be5d74, 0x80deb1fe, 0x9bdc06a7, 0xc19bf174,
    0xe49b69c1, 0xefbe4786, 0x0fc19dc6, 0x240ca1cc, 0x2de92c6f, 0x4a7484aa, 0x5cb0a9dc, 0x76f988da,
    0x983e5152, 0xa831c66d, 0xb00327c8, 0xbf597fc7, 0xc6e00bf3, 0xd5a79147, 0x06ca6351, 0x14292967,
    0x27b70a85, 0x2e1b2138, 0x4d2c6dfc, 0x53380d13, 0x650a7354, 0x766a0abb, 0x81c2c92e, 0x92722c85,
    0xa2bfe8a1, 0xa81a664b, 0xc24b8b70, 0xc76c51a3, 0xd192e819, 0xd6990624, 0xf40e3585, 0x106aa070,
    0x19a4c116, 0x1e376c08, 0x2748774c, 0x34b0bcb5, 0x391c0cb3, 0x4ed8aa4a, 0x5b9cca4f, 0x682e6ff3,
    0x748f82ee, 0x78a5636f, 0x84c87814, 0x8cc70208, 0x90befffa, 0xa4506ceb, 0xbef9a3f7, 0xc67178f2,
};

const uint32_t portable_sha256_initial[8] = {0x6a09e667, 0xbb67ae85, 0x3c6ef372, 0xa54ff53a,
                                             0x510e527f, 0x9b05688c, 0x1f83d9ab, 0x5be0cd19};

/* FIPS 180-4, 4.1.2 */
#define ROTR(x, n) ((x) >> (n) | (x) << (32 - (n)))
#define BIG_SIGMA0(x) (ROTR(x, 2) ^ ROTR(x, 13) ^ ROTR(x, 22))
#define BIG_SIGMA1(x) (ROTR(x, 6) ^ ROTR(x, 11) ^ ROTR(x, 25))
#define SMALL_SIGMA0(x) (ROTR(x, 7) ^ ROTR(x, 18) ^ (x) >> 3)
#define SMALL_SIGMA1(x) (ROTR(x, 17) ^ ROTR(x, 19) ^ (x) >> 10)
#define CH(e, f, g) ((g) ^ ((e) & ((f) ^ (g))))

/*
 * FIPS 180-4, 6.2.2, step 3: one round, with word the sum of the round's constant and schedule
 * word. The majority of a, b, c is b ^ ((a ^ b) & (b ^ c)), and b ^ c is the a ^ b of the round
 * before.
 */
#define ROUND(a, b, c, d, e, f, g, h, word)                    \
    do {                                                       \
        uint32_t t = h + BIG_SIGMA1(e) + CH(e, f, g) + (word); \
        uint32_t ab = a ^ b;                                   \
        d += t;                                                \
        h = t + BIG_SIGMA0(a) + (b ^ (ab & bc));               \
        bc = ab;                                               \
    } while (0)

/* Eight rounds from round i, after which each variable is back in its place. */
#define EIGHT_ROUNDS(WORD, i)                     \
    ROUND(a, b, c, d, e, f, g, h, WORD(i));       \
    ROUND(h, a, b, c, d, e, f, g, WORD((i) + 1)); \
    ROUND(g, h, a, b, c, d, e, f, WORD((i) + 2)); \
    ROUND(f, g, h, a, b, c, d, e, WORD((i) + 3)); \
    ROUND(e, f, g, h, a, b, c, d, WORD((i) + 4)); \
    ROUND(d, e, f, g, h, a, b, c, WORD((i) + 5)); \
    ROUND(c, d, e, f, g, h, a, b, WORD((i) + 6)); \
    ROUND(b, c, d, e, f, g, h, a, WORD((i) + 7))

/* FIPS 180-4, 6.2.2, step 1: the words of rounds 0 to 15, and of the next 16 rounds from k on. */
#define FIRST_WORD(i) (K[i] + (w[i] = read_u32(block + 4 * (i))))
#define NEXT_WORD(i)                                                        \
    (k[i] + (w[i] += SMALL_SIGMA1(w[((i) + 14) % 16]) + w[((i) + 9) % 16] + \
                     SMALL_SIGMA0(w[((i) + 1) % 16])))

void portable_sha256_blocks(uint32_t state[8], const uint8_t *block, size_t count)
{
    for (; count > 0; count--, block += 64) {
        uint32_t w[16];
        uint32_t a = state[0], b = state[1], c = state[2], d = state[3];
        uint32_t e = state[4], f = state[5], g = state[6], h = state[7];
        uint32_t bc = b ^ c;

        EIGHT_ROUNDS(FIRST_WORD, 0);
        EIGHT_ROUNDS(FIRST_WORD, 8);
        for (const uint32_t *k = K + 16; k < K + 64; k += 16) {
            EIGHT_ROUNDS(NEXT_WORD, 0);
            EIGHT_ROUNDS(NEXT_WORD, 8);
        }

        state[0] += a;
        state[1] += b;
        state[2] += c;
        state[3] += d;
        state[4] += e;
        state[5] += f;
        state[6] += g;
        state[7] += h;
    }
}

void portable_sha256(const uint8_t *message, size_t message_len, uint8_t digest[32])
{
    uint32_t state[8];
    size_t rest = message_len % 64;
    memcpy(state, portable_sha256_initial, sizeof state);
    portable_sha256_blocks(state, message, message_len / 64);

    /* FIPS 180-4, 5.1.1: the rest, a one bit, zeros, and the length in bits. */
    uint8_t last[128] = {0};
    size_t last_len = rest < 56 ? 64 : 128;
    if (rest > 0)
        memcpy(last, message + (message_len - rest), rest);
    last[rest] = 0x80;
    write_u32(last + last_len - 8, (uint32_t)((uint64_t)message_len >> 29));
    write_u32(last + last_len - 4, (uint32_t)((uint64_t)message_len << 3));
    portable_sha256_blocks(state, last, last_len / 64);

    for (int i = 0; i < 8; i++)
        write_u32(digest + 4 * i, state[i]);
}
