/* SHA-256 in portable C, to measure against. */
#ifndef PORTABLE_SHA256_H
#define PORTABLE_SHA256_H

#include <stddef.h>
#include <stdint.h>

/* Writes the SHA-256 digest of the first message_len bytes at message. */
void portable_sha256(const uint8_t *message, size_t message_len, uint8_t digest[32]);

/* ---- the parts of it */

/* The state before the first block (FIPS 180-4, 5.3.3). */
extern const uint32_t portable_sha256_initial[8];

/* Takes count blocks of 64 bytes into the state (FIPS 180-4, 6.2.2). */
void portable_sha256_blocks(uint32_t state[8], const uint8_t *block, size_t count);

#endif
