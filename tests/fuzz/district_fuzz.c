/*
 * A libFuzzer harness of hirelog_district; tests/fuzz/run builds it and runs it.
 *
 * An input is the roster's length (2 bytes), the report's (2 bytes), the number of lengths (1 byte),
 * the lengths (4 bytes each), all big-endian, then the roster and, to the end, the buffer. A length
 * of the roster or a number of lengths that is too large takes what there is. A mutation changes the
 * roster or one submission and its length, puts one submission in another's place, adds one or takes
 * one away, or changes a length or the report's alone.
 *
 * The parts are lent as parts.h says, by the lowest bits of the report's length, and the report
 * stands at an unreadable page as they do, among guard bytes. What the run has to give is put
 * together here from audits by the separately written auditor, of each submission beside itself and
 * of every two that are accepted: the number, the report, and the bytes after it. The library has no
 * counters of its own, so what leads the fuzzer on is the auditor's branches, and what the run says:
 * its number, each submission's number by its position, the pair, and the replicas named.
 */
#define _GNU_SOURCE
#include "hirelog.h"
#include "parts.h"
#include "report.h"

enum { ROSTER, BUFFER, LENGTHS };
enum { HEAD = 5, REPORT_ROOM = 256, COUNT_MOST = 12 };

/* Document 02's numbers: the least submissions, the bytes of a report after theirs. */
enum { COUNT_LEAST = 2, AFTER_NUMBERS = 4, MOST = HIRELOG_DISTRICT_MAX };

/* What libFuzzer counts as new beside the branches. */
enum { NUMBERS = HIRELOG_LENGTH_SUM + 1, SEEN_OWN = NUMBERS, SEEN_PAIR = SEEN_OWN + MOST * NUMBERS };
enum { SEEN_NAMED = SEEN_PAIR + (MOST + 1) * (MOST + 1), SEEN_ALL = SEEN_NAMED + REPLICAS_MOST };
__attribute__((used, section("__libfuzzer_extra_counters"))) static volatile uint8_t
    seen[SEEN_ALL];

struct input {
    const uint8_t *roster, *buffer;
    size_t roster_len, buffer_len, report_len, count;
    uint32_t lengths[COUNT_MOST];
};

/* ---- inputs */

static int read_input(const uint8_t *data, size_t size, struct input *input)
{
    if (size < HEAD)
        return 0;
    size_t left = size - HEAD;
    input->report_len = read_u16(data + 2) % REPORT_ROOM;
    input->count = data[4] % (COUNT_MOST + 1);
    if (input->count > left / 4)
        input->count = left / 4;
    for (size_t i = 0; i < input->count; i++)
        input->lengths[i] = read_u32(data + HEAD + 4 * i);
    left -= 4 * input->count;
    input->roster_len = take(read_u16(data), &left);
    input->roster = data + HEAD + 4 * input->count;
    input->buffer = input->roster + input->roster_len;
    input->buffer_len = left;
    return 1;
}

/* Whether the lengths add up to the buffer. */
static int adds_up(const struct input *input)
{
    uint64_t sum = 0;
    for (size_t i = 0; i < input->count; i++)
        sum += input->lengths[i];
    return sum == input->buffer_len;
}

/* An input whose submissions stand apart, for changing one of them. */
struct apart {
    const uint8_t *roster, *submissions[COUNT_MOST];
    size_t roster_len, lens[COUNT_MOST], count, report_len;
};

static struct apart take_apart(const struct input *input)
{
    struct apart apart = {.roster = input->roster,
                          .roster_len = input->roster_len,
                          .count = input->count,
                          .report_len = input->report_len};
    const uint8_t *at = input->buffer;
    for (size_t i = 0; i < input->count; i++) {
        apart.submissions[i] = at;
        apart.lens[i] = input->lengths[i];
        at += apart.lens[i];
    }
    return apart;
}

/* Writes the input, if there is room for it; its size. */
static size_t put_together(const struct apart *apart, uint8_t *data, size_t size, size_t max_size)
{
    size_t all = HEAD + 4 * apart->count + apart->roster_len;
    for (size_t i = 0; i < apart->count; i++)
        all += apart->lens[i];
    if (all > max_size || apart->roster_len > UINT16_MAX)
        return size;
    write_u16(data, (uint16_t)apart->roster_len);
    write_u16(data + 2, (uint16_t)apart->report_len);
    data[4] = (uint8_t)apart->count;
    uint8_t *at = data + HEAD;
    for (size_t i = 0; i < apart->count; i++, at += 4)
        write_u32(at, (uint32_t)apart->lens[i]);
    memcpy(at, apart->roster, apart->roster_len);
    at += apart->roster_len;
    for (size_t i = 0; i < apart->count; i++) {
        memcpy(at, apart->submissions[i], apart->lens[i]);
        at += apart->lens[i];
    }
    return all;
}

/* Changes the bytes of one part. */
static void change(const uint8_t **part, size_t *len, size_t size, size_t max_size)
{
    static uint8_t changed[ROOM];
    size_t others = size - *len;
    memcpy(changed, *part, *len);
    if (others < max_size)
        *len = LLVMFuzzerMutate(changed, *len, max_size - others);
    *part = changed;
}

size_t LLVMFuzzerCustomMutator(uint8_t *data, size_t size, size_t max_size, unsigned seed)
{
    static uint8_t copy[ROOM];
    struct input input;
    if (size > ROOM / 2 || max_size > ROOM / 2 || !read_input(data, size, &input) ||
        !adds_up(&input) || input.count == 0 || seed % 32 == 0)
        return LLVMFuzzerMutate(data, size, max_size);
    memcpy(copy, data, size);
    read_input(copy, size, &input);
    struct apart apart = take_apart(&input);
    unsigned choice = seed / 32 % 16;
    size_t which = seed / 512 % apart.count, other = seed / 8192 % apart.count;
    if (choice == 0) {
        change(&apart.roster, &apart.roster_len, size, max_size);
    } else if (choice == 1) {
        apart.report_len = seed / 512 % REPORT_ROOM;
    } else if (choice == 2) { /* a length alone */
        write_u32(data + HEAD + 4 * which, (uint32_t)(apart.lens[which] + seed / 8192 - 2));
        return size;
    } else if (choice < 5) {
        apart.submissions[which] = apart.submissions[other];
        apart.lens[which] = apart.lens[other];
    } else if (choice == 5 && apart.count < COUNT_MOST) {
        apart.submissions[apart.count] = apart.submissions[other];
        apart.lens[apart.count++] = apart.lens[other];
    } else if (choice == 6) {
        apart.count--;
        apart.submissions[which] = apart.submissions[apart.count];
        apart.lens[which] = apart.lens[apart.count];
    } else {
        change(&apart.submissions[which], &apart.lens[which], size, max_size);
    }
    return put_together(&apart, data, size, max_size);
}

/* ---- what the run has to give */

/* An audit by the auditor; its number. */
static uint32_t audit(const struct input *input, const uint8_t *first, size_t first_len,
                      const uint8_t *second, size_t second_len, uint8_t report[HIRELOG_REPORT_SIZE])
{
    return auditor_audit(input->roster, input->roster_len, first, first_len, second, second_len,
                         report, HIRELOG_REPORT_SIZE);
}

/* The number, and with 0 the report in the buffer's first bytes. */
static uint32_t expect(const struct input *input, uint8_t *report)
{
    uint8_t audited[HIRELOG_REPORT_SIZE];
    uint32_t number = audit(input, input->buffer, 0, input->buffer, 0, audited);
    if (number >= HIRELOG_ROSTER_SIZE && number <= HIRELOG_DUPLICATE_KEY)
        return number;
    if (input->count < COUNT_LEAST || input->count > MOST)
        return HIRELOG_LENGTH_COUNT;
    if (!adds_up(input))
        return HIRELOG_LENGTH_SUM;
    if (input->report_len < input->count + AFTER_NUMBERS)
        return HIRELOG_SHORT_REPORT;

    struct apart apart = take_apart(input);
    uint8_t *after = report + apart.count;
    memset(report, 0, apart.count + AFTER_NUMBERS);
    for (size_t i = 0; i < apart.count; i++)
        report[i] = (uint8_t)audit(input, apart.submissions[i], apart.lens[i],
                                   apart.submissions[i], apart.lens[i], audited);
    for (size_t i = 0; i < apart.count; i++)
        for (size_t j = i + 1; j < apart.count; j++) {
            if (report[i] != HIRELOG_OK || report[j] != HIRELOG_OK)
                continue;
            audit(input, apart.submissions[i], apart.lens[i], apart.submissions[j], apart.lens[j],
                  audited);
            after[0] |= audited[NAMED_AT];
            after[1] |= audited[NAMED_AT + 1];
            if (report_fork(audited) != 0 && after[2] == 0) {
                after[2] = (uint8_t)(i + 1);
                after[3] = (uint8_t)(j + 1);
            }
        }
    return HIRELOG_OK;
}

/* ---- what must hold */

static void note(const struct input *input, uint32_t number, const uint8_t *report)
{
    seen[number] = 1;
    if (number != HIRELOG_OK)
        return;
    const uint8_t *after = report + input->count;
    for (size_t i = 0; i < input->count; i++)
        seen[SEEN_OWN + NUMBERS * i + report[i]] = 1;
    seen[SEEN_PAIR + (MOST + 1) * after[2] + after[3]] = 1;
    for (unsigned k = 0; k < REPLICAS_MOST; k++)
        if (read_u16(after) >> k & 1)
            seen[SEEN_NAMED + k] = 1;
}

int LLVMFuzzerTestOneInput(const uint8_t *data, size_t size)
{
    static struct guarded room;
    struct input input;
    const uint8_t *lent[PARTS];
    uint8_t expected[REPORT_ROOM];
    ptrdiff_t at;
    if (!read_input(data, size, &input))
        return 0;
    if (!room.pages)
        guarded_make(&room, "report", REPORT_ROOM);
    const uint8_t *parts[PARTS] = {input.roster, input.buffer, (const uint8_t *)input.lengths};
    size_t lens[PARTS] = {input.roster_len, input.buffer_len,
                          input.count * sizeof *input.lengths};
    lend(parts, lens, input.report_len, lent);
    uint8_t *offered = guarded_offer(&room, input.report_len, side_of(input.report_len), 0);
    memcpy(expected, offered, input.report_len);
    uint32_t wanted = expect(&input, expected);
    uint32_t number = hirelog_district(lent[ROSTER], lens[ROSTER], lent[BUFFER], lens[BUFFER],
                                       (const void *)lent[LENGTHS], input.count, offered,
                                       input.report_len);
    if (number != wanted)
        fail("another number than the auditor's audits give");
    if (memcmp(offered, expected, input.report_len) != 0)
        fail("another report than the auditor's audits give, or other bytes after it");
    if (guarded_changed(&room, number == HIRELOG_OK ? input.count + AFTER_NUMBERS : 0, &at))
        fail("a byte before or after the report was written");
    note(&input, number, offered);
    return 0;
}
