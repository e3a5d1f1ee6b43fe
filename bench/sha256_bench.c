/*
 * Measures hirelog_sha256 beside portable C and OpenSSL:  sha256_bench [ROUNDS]
 *
 * In each round every implementation hashes the same messages once, one implementation after the
 * other, on one processor; the least time over all rounds counts. The digests must agree.
 *
 * OpenSSL without SHA instructions runs in a child (child.h).
 */
#define _GNU_SOURCE
#define OPENSSL_SUPPRESS_DEPRECATED /* SHA256_Init and so on: no search for an algorithm per call */
#include "child.h"
#include "hirelog.h"
#include "portable_sha256.h"
#include "timing.h"

#include <openssl/sha.h>

typedef void hash_function(const uint8_t *message, size_t len, uint8_t digest[32]);

/* The two kinds of round: count messages of len bytes each, of blocks blocks each. */
static const struct kind {
    size_t len, count, blocks;
} kinds[] = {
    {1 << 20, 1, (1 << 20) / 64 + 1},
    {55, 2048, 1},
};
enum { KINDS = 2, SHORT_PLACES = 512 };

/* What a round gives: its time and its last digest. */
struct result {
    double ns;
    uint8_t digest[32];
};

static uint8_t bytes[1 << 20];

static _Noreturn void stop(const char *why)
{
    fprintf(stderr, "sha256_bench: %s\n", why);
    exit(1);
}

/* ---- the implementations */

static void ours(const uint8_t *message, size_t len, uint8_t digest[32])
{
    if (hirelog_sha256(message, len, digest) != HIRELOG_OK)
        stop("hirelog_sha256 gave no digest");
}

static void openssl(const uint8_t *message, size_t len, uint8_t digest[32])
{
    SHA256_CTX context;
    SHA256_Init(&context);
    SHA256_Update(&context, message, len);
    SHA256_Final(digest, &context);
}

/* ---- rounds */

/* One round. The short messages stand side by side in the first 28 KiB and come round again. */
static struct result run_round(hash_function *hash, const struct kind *kind)
{
    struct result result;
    hash(bytes, 4096, result.digest); /* not timed: brings the code back into the caches */
    double start = now_ns();
    for (size_t i = 0; i < kind->count; i++)
        hash(bytes + i % SHORT_PLACES * kind->len, kind->len, result.digest);
    result.ns = now_ns() - start;
    return result;
}

/* ---- the table */

int main(int argc, char **argv)
{
    for (size_t i = 0; i < sizeof bytes; i++)
        bytes[i] = (uint8_t)(i * 167 + (i >> 8) * 13);
    if (argc == 2 && strcmp(argv[1], "--serve") == 0) {
        for (uint8_t kind; next_round(&kind);) {
            struct result result = run_round(openssl, &kinds[kind]);
            send_result(&result, sizeof result);
        }
        return 0;
    }
    int rounds = argc == 2 ? atoi(argv[1]) : 400;
    if (argc > 2 || rounds < 1) {
        fprintf(stderr, "usage: sha256_bench [ROUNDS]\n");
        return 1;
    }

    enum { OURS, PORTABLE, OPENSSL, WITHOUT, ALL };
    int has_sha = cpu_has_sha();
    const char *const names[ALL] = {"ours (hirelog_sha256)", "portable C",
                                    has_sha ? "OpenSSL, SHA instructions" : "OpenSSL",
                                    "OpenSSL without them"};
    static hash_function *const hashes[WITHOUT] = {ours, portable_sha256, openssl};
    double best[ALL][KINDS]; /* nanoseconds per block */

    char *const served[] = {argv[0], "--serve", NULL};
    struct child child;
    stay();
    if (!start_child(&child, served))
        stop("no child");
    for (int round = 0; round < rounds; round++) {
        for (uint8_t k = 0; k < KINDS; k++) {
            struct result first = {0};
            for (int i = 0; i < ALL; i++) {
                struct result r = {0};
                if (i != WITHOUT)
                    r = run_round(hashes[i], &kinds[k]);
                else if (!ask_child(&child, k, &r, sizeof r))
                    stop("the child gave no answer");
                if (i == 0)
                    first = r;
                if (memcmp(r.digest, first.digest, 32) != 0)
                    stop("the digests differ");
                double ns = r.ns / (double)(kinds[k].count * kinds[k].blocks);
                if (round == 0 || ns < best[i][k])
                    best[i][k] = ns;
            }
        }
    }
    end_child(&child);

    printf("CPU has SHA instructions: %s. Nanoseconds per block, best of %d rounds.\n\n",
           has_sha ? "yes" : "no, so the two OpenSSL rows run the same code", rounds);
    printf("%-30s %10s %10s %10s %10s\n", "", "1 MiB", "ours/this", "55 bytes", "ours/this");
    for (int i = 0; i < ALL; i++)
        printf("%-30s %10.1f %10.2f %10.1f %10.2f\n", names[i], best[i][0],
               best[OURS][0] / best[i][0], best[i][1], best[OURS][1] / best[i][1]);
    printf("\n");
    printf("ratio to portable C: 1 MiB %.2f, 55 bytes %.2f\n", best[OURS][0] / best[PORTABLE][0],
           best[OURS][1] / best[PORTABLE][1]);
    return 0;
}
