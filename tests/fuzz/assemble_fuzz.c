/*
 * A libFuzzer harness of hirelog_assemble; tests/fuzz/run builds it and runs it.
 *
 * An input is the roster's length (2 bytes), the log's (4 bytes), the output's (4 bytes), all
 * big-endian, then roster, log and, to the end, the items. A length that is too large takes what
 * there is. A mutation changes the roster or the log, takes another output, or changes, repeats,
 * moves or leaves out an item.
 *
 * The parts are lent as parts.h says, by the lowest bits of the output's length, and the output
 * stands at an unreadable page as they do, among guard bytes. Number, length, output and the bytes
 * after it have to be those of the separately written auditor, which has to accept what is written.
 * The library has no counters of its own, so what leads the fuzzer on is the auditor's branches, and
 * what the call says: its number, and of what is written how many terms it has, who leads and signs
 * them, and where it is committed.
 */
#define _GNU_SOURCE
#include "hirelog.h"
#include "items.h"
#include "parts.h"
#include "report.h"
#include "submission.h"

enum { ROSTER, LOG, ITEMS };
enum { HEAD = 10, ITEMS_MOST = 64 };

/* What libFuzzer counts as new beside the branches. */
enum { NUMBERS = HIRELOG_SHORT_OUTPUT + 1, TERMS_SEEN = 8, MASKS = 1 << REPLICAS_MOST };
enum { SEEN_TERMS = NUMBERS, SEEN_LEADER = SEEN_TERMS + TERMS_SEEN };
enum { SEEN_VOTERS = SEEN_LEADER + REPLICAS_MOST + 1, SEEN_COMMIT = SEEN_VOTERS + MASKS };
enum { SEEN_RECEIPTS = SEEN_COMMIT + TERMS_SEEN, SEEN_ALL = SEEN_RECEIPTS + MASKS };
__attribute__((used, section("__libfuzzer_extra_counters"))) static volatile uint8_t
    seen[SEEN_ALL];

struct input {
    const uint8_t *parts[PARTS];
    size_t lens[PARTS], output_len;
};

/* ---- inputs */

static int read_input(const uint8_t *data, size_t size, struct input *input)
{
    if (size < HEAD)
        return 0;
    size_t left = size - HEAD;
    input->output_len = read_u32(data + 6) % ROOM;
    input->lens[ROSTER] = take(read_u16(data), &left);
    input->lens[LOG] = take(read_u32(data + 2), &left);
    input->lens[ITEMS] = left;
    input->parts[ROSTER] = data + HEAD;
    input->parts[LOG] = input->parts[ROSTER] + input->lens[ROSTER];
    input->parts[ITEMS] = input->parts[LOG] + input->lens[LOG];
    return 1;
}

static size_t write_input(const struct input *input, uint8_t *data, size_t size, size_t max_size)
{
    size_t at = HEAD;
    if (HEAD + input->lens[ROSTER] + input->lens[LOG] + input->lens[ITEMS] > max_size ||
        input->lens[ROSTER] > UINT16_MAX)
        return size;
    write_u16(data, (uint16_t)input->lens[ROSTER]);
    write_u32(data + 2, (uint32_t)input->lens[LOG]);
    write_u32(data + 6, (uint32_t)input->output_len);
    for (int i = 0; i < PARTS; i++) {
        memcpy(data + at, input->parts[i], input->lens[i]);
        at += input->lens[i];
    }
    return at;
}

/* The items one by one, for changing some of them. */
struct apart {
    const uint8_t *items[ITEMS_MOST];
    size_t lens[ITEMS_MOST], count;
};

/* Takes the items apart as far as they are whole; what follows is one more. */
static struct apart take_apart(const struct input *input)
{
    struct apart apart = {.count = 0};
    const uint8_t *at = input->parts[ITEMS];
    size_t left = input->lens[ITEMS];
    size_t signature = input->lens[ROSTER] < 22 ? 0 : signature_size(input->parts[ROSTER]);
    while (left > 0 && apart.count < ITEMS_MOST) {
        size_t size = apart.count + 1 == ITEMS_MOST ? 0 : item_size(at, left, signature);
        if (size == 0)
            size = left;
        apart.items[apart.count] = at;
        apart.lens[apart.count++] = size;
        at += size;
        left -= size;
    }
    return apart;
}

/* Puts them together again, if there is room for them. */
static void put_together(const struct apart *apart, struct input *input)
{
    static uint8_t joined[ROOM];
    size_t len = 0;
    for (size_t i = 0; i < apart->count; i++) {
        if (apart->lens[i] > ROOM - len)
            return;
        memcpy(joined + len, apart->items[i], apart->lens[i]);
        len += apart->lens[i];
    }
    input->parts[ITEMS] = joined;
    input->lens[ITEMS] = len;
}

/* Changes the bytes of one part. */
static void change(const uint8_t **part, size_t *len, size_t size, size_t max_size)
{
    static uint8_t changed[ROOM];
    size_t others = size - *len;
    memcpy(changed, *part, *len);
    if (others < max_size)
        *len = LLVMFuzzerMutate(changed, *len, max_size - others);
    *part = changed;
}

/* Changes, repeats, moves, exchanges or leaves out items. */
static void change_items(struct input *input, unsigned seed, size_t size, size_t max_size)
{
    struct apart apart = take_apart(input);
    if (apart.count == 0) {
        change(&input->parts[ITEMS], &input->lens[ITEMS], size, max_size);
        return;
    }
    size_t which = seed / 8 % apart.count, other = seed / 512 % apart.count;
    const uint8_t *item = apart.items[which];
    size_t len = apart.lens[which];
    switch (seed % 8) {
    case 0: /* a copy at the end */
        if (apart.count < ITEMS_MOST) {
            apart.items[apart.count] = item;
            apart.lens[apart.count++] = len;
        }
        break;
    case 1: /* without it */
        apart.count--;
        memmove(apart.items + which, apart.items + which + 1,
                (apart.count - which) * sizeof *apart.items);
        memmove(apart.lens + which, apart.lens + which + 1,
                (apart.count - which) * sizeof *apart.lens);
        break;
    case 2: /* in another's place, which comes into its own */
    case 3: /* in another's place, which is gone */
        if (seed % 8 == 2) {
            apart.items[which] = apart.items[other];
            apart.lens[which] = apart.lens[other];
        }
        apart.items[other] = item;
        apart.lens[other] = len;
        break;
    default:
        change(&apart.items[which], &apart.lens[which], size, max_size);
    }
    put_together(&apart, input);
}

static size_t last_length; /* of what was written last: for outputs around it */

size_t LLVMFuzzerCustomMutator(uint8_t *data, size_t size, size_t max_size, unsigned seed)
{
    static uint8_t copy[ROOM];
    struct input input;
    if (size > ROOM / 2 || max_size > ROOM / 2 || !read_input(data, size, &input) || seed % 32 == 0)
        return LLVMFuzzerMutate(data, size, max_size);
    memcpy(copy, data, size);
    read_input(copy, size, &input);
    unsigned choice = seed / 32 % 16;
    if (choice == 0)
        change(&input.parts[ROSTER], &input.lens[ROSTER], size, max_size);
    else if (choice < 4)
        change(&input.parts[LOG], &input.lens[LOG], size, max_size);
    else if (choice == 4)
        input.output_len = (last_length + seed / 512 % 4 + ROOM - 2) % ROOM;
    else if (choice == 5)
        input.output_len = seed / 512 % ROOM;
    else
        change_items(&input, seed / 512, size, max_size);
    return write_input(&input, data, size, max_size);
}

/* ---- what must hold */

/* Of a log and of signers what they count as. */
static void note(uint32_t number, const uint8_t *written, size_t length, size_t signature)
{
    seen[number] = 1;
    if (number != HIRELOG_OK)
        return;
    const uint8_t *trailer = written + length - TRAILER_SIZE;
    const uint8_t *at = written + RECORD_SIZE * read_u32(trailer + RECORDS_AT);
    uint32_t leaders = read_u32(trailer + LEADERS_AT), back = read_u32(trailer + COMMIT_AT);
    seen[SEEN_TERMS + leaders % TERMS_SEEN] = 1;
    for (uint32_t i = 0; i < leaders; i++) {
        unsigned signers = read_u16(at + LEADER_SIGNERS_AT);
        seen[SEEN_LEADER + read_u16(at) % (REPLICAS_MOST + 1)] = 1;
        seen[SEEN_VOTERS + signers % MASKS] = 1;
        at += LEADER_HEAD_SIZE + (unsigned)__builtin_popcount(signers) * signature;
    }
    if (back > 0) {
        seen[SEEN_COMMIT + read_u32(trailer - back) % TERMS_SEEN] = 1;
        seen[SEEN_RECEIPTS + read_u16(trailer - back + COMMIT_SIGNERS_AT) % MASKS] = 1;
    }
}

/*
 * The auditor accepts what is written beside itself, and finds no fork, and no rule broken but that
 * on leaves.
 */
static void check_accepted(const struct input *input, const uint8_t *written, size_t length)
{
    uint8_t report[HIRELOG_REPORT_SIZE];
    if (auditor_audit(input->parts[ROSTER], input->lens[ROSTER], written, length, written, length,
                      report, sizeof report) != HIRELOG_OK ||
        report_fork(report) != 0 || report_breaks_more_than_leaves(report))
        fail("the auditor does not accept what is written");
    if (length < input->lens[LOG] || memcmp(written, input->parts[LOG], input->lens[LOG]) != 0)
        fail("what is written does not begin with the log");
}

int LLVMFuzzerTestOneInput(const uint8_t *data, size_t size)
{
    static struct guarded room;
    static uint8_t expected[ROOM];
    struct input input;
    const uint8_t *lent[PARTS];
    size_t length;
    ptrdiff_t at;
    if (!read_input(data, size, &input))
        return 0;
    if (!room.pages)
        guarded_make(&room, "output", ROOM);
    lend(input.parts, input.lens, input.output_len, lent);
    uint8_t *offered = guarded_offer(&room, input.output_len, side_of(input.output_len), 0);
    memcpy(expected, offered, input.output_len);
    uint32_t number = auditor_assemble(input.parts[ROSTER], input.lens[ROSTER], input.parts[LOG],
                                       input.lens[LOG], input.parts[ITEMS], input.lens[ITEMS],
                                       expected, input.output_len, &length);
    struct hirelog_written written =
        hirelog_assemble(lent[ROSTER], input.lens[ROSTER], lent[LOG], input.lens[LOG], lent[ITEMS],
                         input.lens[ITEMS], input.output_len ? offered : NULL, input.output_len);
    if (written.number != number)
        fail("another number than the auditor's");
    if (written.length != length)
        fail("another length than the auditor's");
    if (memcmp(offered, expected, input.output_len) != 0)
        fail("another submission than the auditor's, or other bytes after it");
    if (guarded_changed(&room, length, &at))
        fail("a byte before or after the submission was written");
    if (number == HIRELOG_OK) {
        last_length = length;
        check_accepted(&input, offered, length);
    }
    note(number, offered, length,
         number == HIRELOG_OK ? signature_size(input.parts[ROSTER]) : 0);
    return 0;
}
