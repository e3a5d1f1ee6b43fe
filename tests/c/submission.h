/*
 * A submission of version 1 in bytes (document 01, A submission, read from its trailer), and the
 * chain strings of its log (Chain and statements).
 */
#ifndef SUBMISSION_H
#define SUBMISSION_H

#include "big_endian.h"

#include <string.h>

/* The bytes of a cluster's name, of a record and of the trailer. */
enum { NAME_SIZE = 16, RECORD_SIZE = 36, TRAILER_SIZE = 44 };

/* The bytes of a pointer, and of the chain string that it is the digest of. */
enum { POINTER_SIZE = 32, CHAIN_STRING_SIZE = 72 };

/* Where a field of the trailer begins: H, L, the fourth distance, the version. */
enum { RECORDS_AT = 16, LEADERS_AT = 20, COMMIT_AT = 36, VERSION_AT = 40 };

/* Of a leader certificate: the bytes before its signatures, and where term and signers begin. */
enum { LEADER_HEAD_SIZE = 48, LEADER_TERM_AT = 2, LEADER_SIGNERS_AT = 46 };

/* Where a commit certificate has its signers, after the index. */
enum { COMMIT_SIGNERS_AT = 4 };

/* The chain string of the record with this index, from 1: index, record, the pointer before. */
static inline void write_chain_string(uint8_t string[CHAIN_STRING_SIZE], uint32_t index,
                                      const uint8_t *record, const uint8_t *before)
{
    write_u32(string, index);
    memcpy(string + 4, record, RECORD_SIZE);
    memcpy(string + 4 + RECORD_SIZE, before, POINTER_SIZE);
}

#endif
