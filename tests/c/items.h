/*
 * A log and items as they are lent for a submission that is to be assembled (document 02, W3): the
 * numbers that they get by their form alone, if the roster is not refused.
 */
#ifndef ITEMS_H
#define ITEMS_H

#include "big_endian.h"
#include "hirelog.h"
#include "submission.h"

#include <stddef.h>

/* Document 01's limits for a log. */
enum { RECORDS_MOST = 4096, TERMS_MOST = 64 };

/* The bytes of an item's number, and of a statement of kind 1 or 2, and of kind 3. */
enum { ITEM_NUMBER_SIZE = 2, POSITION_SIZE = 57, VOTE_SIZE = 63 };

/* The bytes of a signature: by the tree type of the roster's first key, 5 to 9. */
static inline size_t signature_size(const uint8_t *roster)
{
    enum { FIRST_KEY_AT = 18, BEFORE_LOWEST = 4, PER_TYPE = 5 * 32, WITHOUT_PATH = 1132 };
    return WITHOUT_PATH + PER_TYPE * (read_u32(roster + FIRST_KEY_AT) - BEFORE_LOWEST);
}

/* Whether a log has more different terms than it may. */
static inline int has_many_terms(const uint8_t *log, size_t records)
{
    uint32_t terms[TERMS_MOST];
    size_t count = 0;
    for (size_t i = 0; i < records; i++) {
        uint32_t term = read_u32(log + RECORD_SIZE * i);
        size_t k = 0;
        while (k < count && terms[k] != term)
            k++;
        if (k == TERMS_MOST)
            return 1;
        if (k == count)
            terms[count++] = term;
    }
    return 0;
}

/* Number 8 or 11, or 0. */
static inline uint32_t number_of_log(const uint8_t *log, size_t len)
{
    size_t records = len / RECORD_SIZE;
    uint32_t before = 1;
    if (len % RECORD_SIZE != 0 || records > RECORDS_MOST || has_many_terms(log, records))
        return HIRELOG_COUNTS;
    for (size_t i = 0; i < records; i++) {
        uint32_t term = read_u32(log + RECORD_SIZE * i);
        if (term < before)
            return HIRELOG_TERM_ORDER;
        before = term;
    }
    return HIRELOG_OK;
}

/* The bytes of the first item of those that are left; 0 if its kind is none, or it is cut. */
static inline size_t item_size(const uint8_t *items, size_t left, size_t signature)
{
    if (left <= ITEM_NUMBER_SIZE)
        return 0;
    uint8_t kind = items[ITEM_NUMBER_SIZE];
    size_t size = ITEM_NUMBER_SIZE + (kind == 3 ? VOTE_SIZE : POSITION_SIZE) + signature;
    return kind >= 1 && kind <= 3 && size <= left ? size : 0;
}

/* Number 19, or 0. */
static inline uint32_t number_of_items(const uint8_t *items, size_t len, size_t signature)
{
    while (len > 0) {
        size_t size = item_size(items, len, signature);
        if (size == 0)
            return HIRELOG_ITEM;
        items += size;
        len -= size;
    }
    return HIRELOG_OK;
}

#endif
