/* The signatures of an accepted submission, each with its key and its statement (document 01). */
#ifndef SLOTS_H
#define SLOTS_H

#include "files.h"
#include "portable_sha256.h"
#include "submission.h"

enum { SLOTS_MOST = 64 * 10 + 9, STATEMENT_MOST = 63, KEY_SIZE = 56 };

struct slot {
    const uint8_t *key, *signature;
    size_t signature_len, statement_len;
    uint8_t statement[STATEMENT_MOST];
};

/* What the slots are read from, and how far. */
struct slot_reader {
    const uint8_t *roster, *at;
    size_t signature_len, count;
    struct slot *slots;
};

/* The slot of the next signature, by this replica: kind, cluster name and the fields. */
static inline void take_slot(struct slot_reader *reader, unsigned replica, uint8_t kind,
                             const uint8_t *fields, size_t len)
{
    struct slot *slot = &reader->slots[reader->count++];
    slot->key = reader->roster + 18 + KEY_SIZE * (replica - 1);
    slot->signature = reader->at;
    slot->signature_len = reader->signature_len;
    slot->statement[0] = kind;
    memcpy(slot->statement + 1, reader->roster, NAME_SIZE);
    memcpy(slot->statement + 1 + NAME_SIZE, fields, len);
    slot->statement_len = 1 + NAME_SIZE + len;
    reader->at += reader->signature_len;
}

/* A slot for each signer, rising. */
static inline void take_signers(struct slot_reader *reader, unsigned signers, uint8_t kind,
                                const uint8_t *fields, size_t len)
{
    for (unsigned replica = 1; replica <= 9; replica++)
        if (signers >> (replica - 1) & 1)
            take_slot(reader, replica, kind, fields, len);
}

/* A stamp's or receipt's fields for the record at an index: term, index and pointer. */
static inline void position(uint8_t fields[40], const uint8_t *records, const uint8_t *pointers,
                            uint32_t index)
{
    memcpy(fields, records + RECORD_SIZE * (index - 1), 4);
    write_u32(fields + 4, index);
    memcpy(fields + 8, pointers + POINTER_SIZE * index, POINTER_SIZE);
}

/* Pointers 0 to count, one after the other. */
static inline uint8_t *make_pointers(const uint8_t *records, uint32_t count)
{
    uint8_t *pointers = calloc(count + 1, POINTER_SIZE), string[CHAIN_STRING_SIZE];
    for (uint32_t i = 1; pointers && i <= count; i++) {
        write_chain_string(string, i, records + RECORD_SIZE * (i - 1),
                           pointers + POINTER_SIZE * (i - 1));
        portable_sha256(string, sizeof string, pointers + POINTER_SIZE * i);
    }
    return pointers;
}

/* Writes the slots of a submission that the audit accepts, at most SLOTS_MOST; their number. */
static inline size_t read_slots(const struct file *roster, const struct file *submission,
                                struct slot *slots)
{
    const uint8_t *records = submission->bytes, *trailer = records + submission->len - TRAILER_SIZE;
    uint32_t count = read_u32(trailer + RECORDS_AT), leaders = read_u32(trailer + LEADERS_AT);
    struct slot_reader reader = {roster->bytes, records + RECORD_SIZE * count,
                                 1132 + 160 * (read_u32(roster->bytes + 18) - 4), 0, slots};
    uint8_t *pointers = make_pointers(records, count), fields[40], candidates[64];
    if (!pointers)
        return 0;
    for (uint32_t i = 0; i < leaders; i++) {
        const uint8_t *vote = reader.at;
        candidates[i] = vote[1];
        reader.at += 48;
        take_signers(&reader, read_u16(vote + 46), 3, vote, 46);
    }
    for (uint32_t i = 1, leader = 0; i <= count; i++) {
        const uint8_t *record = records + RECORD_SIZE * (i - 1);
        if (i < count && read_u32(record) == read_u32(record + RECORD_SIZE))
            continue;
        position(fields, records, pointers, i);
        take_slot(&reader, candidates[leader++], 1, fields, sizeof fields);
    }
    if (read_u32(trailer + COMMIT_AT) != 0) {
        const uint8_t *commit = reader.at;
        position(fields, records, pointers, read_u32(commit));
        reader.at += 6;
        take_signers(&reader, read_u16(commit + 4), 2, fields, sizeof fields);
    }
    free(pointers);
    return reader.at == trailer ? reader.count : 0;
}

#endif
