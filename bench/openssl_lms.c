/*
 * The check of an LMS signature over OpenSSL's SHA-256: portable_lms.c once more, with the blocks
 * taken by OpenSSL. SHA256_Transform takes one block and nothing else, so there is no cheaper way
 * to ask OpenSSL for a chain's steps.
 */
#define OPENSSL_SUPPRESS_DEPRECATED /* SHA256_Transform: no search for an algorithm per call */
#include <openssl/sha.h>

#include <stddef.h>
#include <stdint.h>
#include <string.h>

static void openssl_sha256_blocks(uint32_t state[8], const uint8_t *block, size_t count)
{
    SHA256_CTX context;
    memcpy(context.h, state, sizeof context.h);
    for (; count > 0; count--, block += 64)
        SHA256_Transform(&context, block);
    memcpy(state, context.h, sizeof context.h);
}

#include "openssl_lms.h"
#include "portable_sha256.h"
#define portable_lms_good openssl_lms_good
#define portable_sha256_blocks openssl_sha256_blocks
#include "portable_lms.c"
