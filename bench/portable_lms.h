/* The check of an LMS signature in portable C, to measure against. */
#ifndef PORTABLE_LMS_H
#define PORTABLE_LMS_H

#include <stddef.h>
#include <stdint.h>

/* How many blocks of SHA-256 a check took, by what they are for. */
struct portable_lms_blocks {
    uint64_t message, chains, public_key, tree;
};

/*
 * Whether the signature of the message is good for the key: RFC 8554, algorithm 6, with SHA-256 of
 * 32 bytes (one-time types 1 to 4, tree types 5 to 9). Writes the counts, of a bad one as well.
 */
int portable_lms_good(const uint8_t *key, size_t key_len, const uint8_t *message,
                      size_t message_len, const uint8_t *signature, size_t signature_len,
                      struct portable_lms_blocks *blocks);

#endif
