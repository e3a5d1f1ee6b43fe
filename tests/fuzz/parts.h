/*
 * What the harnesses have in common: an input of three parts, lent to the library among unreadable
 * pages, and the auditor (auditor.rs). Before any header: #define _GNU_SOURCE
 */
#ifndef PARTS_H
#define PARTS_H

#include "guarded.h"
#include "hirelog.h"

#include <stddef.h>
#include <stdint.h>
#include <stdio.h>
#include <stdlib.h>
#include <string.h>

enum { PARTS = 3, ROOM = 1 << 17 };

size_t LLVMFuzzerMutate(uint8_t *data, size_t size, size_t max_size);

uint32_t auditor_audit(const uint8_t *roster, size_t roster_len, const uint8_t *first,
                       size_t first_len, const uint8_t *second, size_t second_len,
                       uint8_t *report, size_t report_len);
uint32_t auditor_breaks_both(const uint8_t *roster, size_t roster_len, const uint8_t *first,
                             size_t first_len, const uint8_t *second, size_t second_len);
uint32_t auditor_assemble(const uint8_t *roster, size_t roster_len, const uint8_t *log,
                          size_t log_len, const uint8_t *items, size_t items_len, uint8_t *output,
                          size_t output_len, size_t *length);
struct hirelog_lms_answer auditor_lms_check(const uint8_t *key, size_t key_len,
                                            const uint8_t *message, size_t message_len,
                                            const uint8_t *signature, size_t signature_len);
uint32_t auditor_lms_root(const uint8_t *key, size_t key_len, const uint8_t *message,
                          size_t message_len, const uint8_t *signature, size_t signature_len,
                          uint8_t root[32]);

static _Noreturn void fail(const char *what)
{
    fprintf(stderr, "fuzz: %s\n", what);
    abort();
}

static _Noreturn void guarded_stop(const char *why, const char *hint)
{
    fprintf(stderr, "fuzz: the buffers: %s; %s\n", why, hint);
    abort();
}

static size_t take(size_t wanted, size_t *left)
{
    size_t taken = wanted < *left ? wanted : *left;
    *left -= taken;
    return taken;
}

/* How buffers are lent: each ends at an unreadable page or, with bit 0 of how, begins after one. */
static enum guarded_side side_of(size_t how)
{
    return how & 1 ? PAGE_BEFORE : PAGE_AFTER;
}

/* Lends copies of the parts so; with bit 1 of how NULL stands for one of no bytes. */
static void lend(const uint8_t *const parts[PARTS], const size_t lens[PARTS], size_t how,
                 const uint8_t *lent[PARTS])
{
    static struct guarded rooms[PARTS];
    for (int i = 0; i < PARTS; i++) {
        if (!rooms[i].pages)
            guarded_make(&rooms[i], "part", ROOM);
        if (lens[i] > ROOM)
            fail("an input too large: run with -max_len");
        const uint8_t *copy = guarded_lend(&rooms[i], parts[i], lens[i], side_of(how));
        lent[i] = how & 2 && lens[i] == 0 ? NULL : copy;
    }
}

#endif
