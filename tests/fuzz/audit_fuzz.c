/*
 * A libFuzzer harness of hirelog_audit; tests/fuzz/run builds it and runs it.
 *
 * An input is the roster's length (2 bytes), the first submission's (4 bytes), the report's (2
 * bytes), all big-endian, then roster, first and second. A length that is too large takes what
 * there is. A mutation changes one of the parts and writes the lengths anew.
 *
 * The parts are lent as parts.h says, by the lowest bits of the report's length, and the report
 * stands at an unreadable page as they do, among guard bytes. Number, report and the bytes after it
 * have to be those of the separately written auditor. The library has no counters of its own, so
 * what leads the fuzzer on is the auditor's branches, and what the audit says: its number and
 * place, each replica's rule, and each that breaks both rule 1 and rule 2. Of a report these rules
 * of documents 01 and 02 are checked by themselves besides: the bytes around it stay, a refusal has
 * nothing but number and place, a fork names somebody, a submission audited beside itself breaks no
 * rule but that on leaves (document 02, W5), whoever breaks it there is named beside any other,
 * exchanging the submissions keeps the fork and the replicas named, and a replica that breaks both
 * rule 1 and rule 2 has rule 2 in its row (document 02, W6).
 */
#define _GNU_SOURCE
#include "hirelog.h"
#include "parts.h"
#include "report.h"

enum { ROSTER, FIRST, SECOND };
enum { HEAD = 8, REPORT_ROOM = 256 };

/* Places of a refusal, rules, records of a log, where a roster has n. */
enum { PLACES = 3, RULES = HIRELOG_RULE_ONE_LEAF, RECORDS_MOST = 4096, REPLICAS_AT = 16 };

/*
 * What libFuzzer counts as new beside the branches: each number in each place, then each
 * replica's rule, then each replica that breaks both rule 1 and rule 2.
 */
enum {
    SEEN_RULES = PLACES * (HIRELOG_BAD_SIGNATURE + 1),
    SEEN_BOTH = SEEN_RULES + REPLICAS_MOST * (RULES + 1)
};
__attribute__((used, section("__libfuzzer_extra_counters"))) static volatile uint8_t
    seen[SEEN_BOTH + REPLICAS_MOST];

struct input {
    const uint8_t *parts[PARTS];
    size_t lens[PARTS], report_len;
};

/* ---- inputs */

static int read_input(const uint8_t *data, size_t size, struct input *input)
{
    if (size < HEAD)
        return 0;
    size_t left = size - HEAD;
    input->report_len = read_u16(data + 6) % REPORT_ROOM;
    input->lens[ROSTER] = take(read_u16(data), &left);
    input->lens[FIRST] = take(read_u32(data + 2), &left);
    input->lens[SECOND] = left;
    input->parts[ROSTER] = data + HEAD;
    input->parts[FIRST] = input->parts[ROSTER] + input->lens[ROSTER];
    input->parts[SECOND] = input->parts[FIRST] + input->lens[FIRST];
    return 1;
}

static size_t write_input(const struct input *input, uint8_t *data)
{
    size_t at = HEAD;
    write_u16(data, (uint16_t)input->lens[ROSTER]);
    write_u32(data + 2, (uint32_t)input->lens[FIRST]);
    write_u16(data + 6, (uint16_t)input->report_len);
    for (int i = 0; i < PARTS; i++) {
        memcpy(data + at, input->parts[i], input->lens[i]);
        at += input->lens[i];
    }
    return at;
}

/* Changes one part, or puts one submission in the other's place, or takes another report. */
size_t LLVMFuzzerCustomMutator(uint8_t *data, size_t size, size_t max_size, unsigned seed)
{
    static uint8_t copy[ROOM], part[ROOM];
    struct input input;
    if (size > ROOM / 2 || max_size > ROOM / 2 || !read_input(data, size, &input))
        return LLVMFuzzerMutate(data, size, max_size);
    memcpy(copy, data, size);
    read_input(copy, size, &input);
    unsigned choice = seed % 16;
    int which = choice == 0 ? ROSTER : choice < 8 ? FIRST : SECOND;
    if (choice == 15) {
        input.report_len = (seed >> 4) % REPORT_ROOM;
    } else if (choice == 7 || choice == 14) {
        int other = FIRST + SECOND - which;
        input.parts[which] = input.parts[other];
        input.lens[which] = input.lens[other];
    } else {
        size_t others = size - input.lens[which];
        memcpy(part, input.parts[which], input.lens[which]);
        if (others < max_size)
            input.lens[which] = LLVMFuzzerMutate(part, input.lens[which], max_size - others);
        input.parts[which] = part;
    }
    size_t all = HEAD + input.lens[ROSTER] + input.lens[FIRST] + input.lens[SECOND];
    return all <= max_size ? write_input(&input, data) : size;
}

/* ---- a call */

/* How many bytes of the report are written with a number. */
static size_t written(uint32_t number)
{
    return number == HIRELOG_SHORT_REPORT ? 0 : HIRELOG_REPORT_SIZE;
}

/* The number and the report of both, which have to be the same. */
static uint32_t call(const struct input *input, uint8_t report[REPORT_ROOM])
{
    static struct guarded room;
    const uint8_t *lent[PARTS];
    uint8_t expected[REPORT_ROOM];
    ptrdiff_t at;
    if (!room.pages)
        guarded_make(&room, "report", REPORT_ROOM);
    lend(input->parts, input->lens, input->report_len, lent);
    uint8_t *offered = guarded_offer(&room, input->report_len, side_of(input->report_len), 0);
    memcpy(expected, offered, input->report_len);
    uint32_t number =
        hirelog_audit(lent[ROSTER], input->lens[ROSTER], lent[FIRST], input->lens[FIRST],
                      lent[SECOND], input->lens[SECOND], offered, input->report_len);
    if (number != auditor_audit(input->parts[ROSTER], input->lens[ROSTER], input->parts[FIRST],
                                input->lens[FIRST], input->parts[SECOND], input->lens[SECOND],
                                expected, input->report_len))
        fail("another number than the auditor's");
    if (memcmp(offered, expected, input->report_len) != 0)
        fail("another report than the auditor's, or other bytes after it");
    if (guarded_changed(&room, written(number), &at))
        fail("a byte before or after the report was written");
    memcpy(report, offered, input->report_len);
    return number;
}

/* ---- what must hold */

static void check_rows(const uint8_t *report, unsigned replicas)
{
    unsigned named = report_named(report);
    if (named >> replicas != 0)
        fail("a replica named that the roster does not have");
    for (unsigned k = 1; k <= REPLICAS_MOST; k++) {
        uint32_t rule = report_rule(report, k), term = report_term(report, k);
        int leaf = rule == HIRELOG_RULE_ONE_LEAF; /* which may have number 0 */
        if (named >> (k - 1) & 1 ? rule < 1 || rule > RULES || (term == 0 && !leaf)
                                 : rule != 0 || term != 0)
            fail("a row that does not go with the replicas named");
        if (rule <= RULES)
            seen[SEEN_RULES + (RULES + 1) * (k - 1) + rule] = 1;
    }
}

static void check_report(const struct input *input, uint32_t number, const uint8_t *report)
{
    if ((number == HIRELOG_SHORT_REPORT) != (input->report_len < HIRELOG_REPORT_SIZE))
        fail("number 1 for a long report, or another for a short one");
    if (number == HIRELOG_SHORT_REPORT)
        return;
    unsigned place = report[PLACE_AT];
    if (number > HIRELOG_BAD_SIGNATURE || report[NUMBER_AT] != number || place >= PLACES ||
        (number >= HIRELOG_SIZE) != (place > 0))
        fail("a number or a place that there is not");
    seen[PLACES * number + place] = 1;
    for (size_t i = FORK_AT; number != HIRELOG_OK && i < HIRELOG_REPORT_SIZE; i++)
        if (report[i] != 0)
            fail("more than number and place after a refusal");
    if (number == HIRELOG_OK) {
        check_rows(report, read_u16(input->parts[ROSTER] + REPLICAS_AT));
        if (report_fork(report) > RECORDS_MOST ||
            (report_fork(report) != 0 && report_named(report) == 0))
            fail("a fork past the log's end, or one that names nobody");
    }
}

/* Of accepted submissions: whoever breaks both rule 1 and rule 2 has the latter in its row. */
static void check_both(const struct input *input, const uint8_t *report)
{
    uint32_t both =
        auditor_breaks_both(input->parts[ROSTER], input->lens[ROSTER], input->parts[FIRST],
                            input->lens[FIRST], input->parts[SECOND], input->lens[SECOND]);
    for (unsigned k = 1; k <= REPLICAS_MOST; k++) {
        if (!(both >> (k - 1) & 1))
            continue;
        seen[SEEN_BOTH + k - 1] = 1;
        if (report_rule(report, k) != HIRELOG_RULE_TWO_STAMPS)
            fail("a replica that breaks rules 1 and 2, and another than 2 in its row");
    }
}

/* Of accepted submissions: each beside itself, and the two exchanged. */
static void check_again(const struct input *input, const uint8_t *report)
{
    uint8_t again[REPORT_ROOM];
    struct input other = *input;
    for (int i = FIRST; i <= SECOND; i++) {
        other.parts[FIRST] = other.parts[SECOND] = input->parts[i];
        other.lens[FIRST] = other.lens[SECOND] = input->lens[i];
        if (call(&other, again) != HIRELOG_OK || report_fork(again) != 0 ||
            report_breaks_more_than_leaves(again))
            fail("an accepted submission beside itself is refused, forks, or breaks a rule");
        if (report_named(again) & ~report_named(report))
            fail("a leaf used twice in one submission, and not charged beside the other");
    }
    other.parts[FIRST] = input->parts[SECOND], other.lens[FIRST] = input->lens[SECOND];
    other.parts[SECOND] = input->parts[FIRST], other.lens[SECOND] = input->lens[FIRST];
    if (call(&other, again) != HIRELOG_OK || memcmp(again, report, ROWS_AT) != 0)
        fail("another fork, or other replicas named, where the submissions are exchanged");
}

int LLVMFuzzerTestOneInput(const uint8_t *data, size_t size)
{
    struct input input;
    uint8_t report[REPORT_ROOM];
    if (!read_input(data, size, &input))
        return 0;
    uint32_t number = call(&input, report);
    check_report(&input, number, report);
    if (number == HIRELOG_OK) {
        check_both(&input, report);
        check_again(&input, report);
    }
    return 0;
}
