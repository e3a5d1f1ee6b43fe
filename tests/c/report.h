/* The fields of an audit's report (document 01, The report), which hirelog.h lays out. */
#ifndef REPORT_H
#define REPORT_H

#include "big_endian.h"
#include "hirelog.h"

enum { REPLICAS_MOST = 9 };

/* Where a field begins. */
enum { NUMBER_AT = 0, PLACE_AT = 1, FORK_AT = 2, NAMED_AT = 6, ROWS_AT = 8 };

/* Of a row: its bytes, and where its term begins. */
enum { ROW_SIZE = 5, ROW_TERM_AT = 1 };

static inline uint32_t report_fork(const uint8_t *report)
{
    return read_u32(report + FORK_AT);
}

/* The replicas named: bit k - 1, counted from the lowest, is replica k. */
static inline unsigned report_named(const uint8_t *report)
{
    return read_u16(report + NAMED_AT);
}

/* The rule that replica k broke, from 1; 0 if it is not named. */
static inline unsigned report_rule(const uint8_t *report, unsigned replica)
{
    return report[ROWS_AT + ROW_SIZE * (replica - 1)];
}

/* The term for that rule; for that on leaves (document 02, W5) a leaf number. */
static inline uint32_t report_term(const uint8_t *report, unsigned replica)
{
    return read_u32(report + ROWS_AT + ROW_SIZE * (replica - 1) + ROW_TERM_AT);
}

/* Whether a replica broke another rule than that on leaves, which one submission alone can show. */
static inline int report_breaks_more_than_leaves(const uint8_t *report)
{
    for (unsigned k = 1; k <= REPLICAS_MOST; k++)
        if (report_rule(report, k) != 0 && report_rule(report, k) != HIRELOG_RULE_ONE_LEAF)
            return 1;
    return 0;
}

#endif
