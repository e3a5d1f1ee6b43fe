/*
 * Counts how often a call hashes the chain string of each record of its submissions (document 02,
 * W2).
 *
 *   pointer_count ADDRESS TIMES audit ROSTER NUMBER FILE [NUMBER FILE]
 *   pointer_count ADDRESS TIMES district ROSTER NUMBER FILE NUMBER FILE ..
 *
 * ADDRESS is that of the function sha256::State::absorb in this program, which is linked with
 * -no-pie, as nm prints it. Each FILE is a submission, and NUMBER the one that it has to get. Where
 * an audit has one submission, its second is an empty one. Printed are each submission's number,
 * its records, and how often the chain string of a record was hashed, the lowest and the highest;
 * then how many blocks were seen.
 *
 * A chain string has to be hashed TIMES times if its submission is accepted, at most so often if it
 * is refused by 13 to 15, and never if by a lower number. Logs that begin alike have chain strings
 * in common: for these it is added up over the submissions. One of them, in an audit the first, has
 * to be accepted and to have a record: by it one knows that blocks are seen. The exit status is 0
 * if all that held, 1 if not, 2 if the call could not be made.
 *
 * The function absorb takes each block that is hashed. Its arguments are where the result goes, the
 * state, and the block's sixteen words: behind rdi, rsi and rdx. At each call of it (breakpoint.h)
 * the block is looked up among the first blocks of the chain strings, which have index, term,
 * payload digest and 24 bytes of the pointer before. Blocks that other code hashes are not seen.
 * Of the library that is sha256_lanes, which is for the steps of a signature's chains alone; that
 * the compiler has made no copy of absorb's code in another function is for the caller to see.
 */
#define _GNU_SOURCE
#define TOOL "pointer_count"
#include "breakpoint.h"
#include "failures.h"
#include "hirelog.h"
#include "report.h"
#include "submission.h"

#include <inttypes.h>

enum { BLOCK_SIZE = 64, WORDS = 16 };

struct chain_string {
    uint8_t block[BLOCK_SIZE]; /* its first */
    unsigned hashed;
};

struct submission {
    const char *path;
    uint32_t number; /* the one that it has to get */
    struct file file;
    size_t records;
    struct chain_string *strings; /* the records' */
};

static uintptr_t absorb;
static unsigned times;
static struct file roster;
static struct submission submissions[HIRELOG_DISTRICT_MAX];
static size_t count;
static unsigned long blocks; /* that were seen */

/* ---- chain strings */

/* As many records as the trailer says, or as there are bytes for. */
static size_t count_records(const struct file *file)
{
    if (file->len < TRAILER_SIZE)
        return 0;
    size_t said = read_u32(file->bytes + file->len - TRAILER_SIZE + RECORDS_AT);
    size_t room = (file->len - TRAILER_SIZE) / RECORD_SIZE;
    return said < room ? said : room;
}

static void make_strings(struct submission *s)
{
    uint8_t string[CHAIN_STRING_SIZE], pointer[POINTER_SIZE] = {0};
    s->records = count_records(&s->file);
    s->strings = calloc(s->records + 1, sizeof *s->strings);
    if (!s->strings)
        stop(s->path, "no memory", "free some");
    for (size_t i = 0; i < s->records; i++) {
        write_chain_string(string, (uint32_t)i + 1, s->file.bytes + RECORD_SIZE * i, pointer);
        memcpy(s->strings[i].block, string, BLOCK_SIZE);
        hirelog_sha256(string, sizeof string, pointer);
    }
}

/* Whether this block begins the chain string of the submission's record with an index, from 1. */
static int has_string(const struct submission *s, size_t index, const uint8_t block[BLOCK_SIZE])
{
    return index >= 1 && index <= s->records &&
           memcmp(s->strings[index - 1].block, block, BLOCK_SIZE) == 0;
}

/* At each call of absorb: its block, which may begin a chain string of several submissions. */
static void see_block(const greg_t *registers)
{
    const uint32_t *words = (const uint32_t *)(uintptr_t)registers[REG_RDX];
    uint8_t block[BLOCK_SIZE];
    for (size_t i = 0; i < WORDS; i++)
        write_u32(block + sizeof *words * i, words[i]);
    blocks++;
    for (struct submission *s = submissions; s < submissions + count; s++)
        if (has_string(s, words[0], block))
            s->strings[words[0] - 1].hashed++;
}

/* ---- the call */

enum { TWO_MINUTES = 120 }; /* no call takes more than some seconds */

static void on_alarm(int number)
{
    (void)number;
    guarded_say_failed("the call has not ended in two minutes: run it without the counter");
    _exit(1);
}

/* The number that each submission gets from an audit, of the one beside an empty one or of two. */
static void audit(uint32_t got[])
{
    uint8_t empty[TRAILER_SIZE] = {0}, report[HIRELOG_REPORT_SIZE];
    struct file second = {empty, sizeof empty};
    memcpy(empty, roster.bytes, roster.len < NAME_SIZE ? roster.len : NAME_SIZE);
    write_u32(empty + VERSION_AT, 1);
    if (count == 2)
        second = submissions[1].file;
    uint32_t number = hirelog_audit(roster.bytes, roster.len, submissions[0].file.bytes,
                                    submissions[0].file.len, second.bytes, second.len, report,
                                    sizeof report);
    if (number == HIRELOG_OK)
        return;
    if (report[PLACE_AT] == 0 || report[PLACE_AT] > count)
        fail("the audit is refused with number %" PRIu32 " in %u, and not in a FILE\n"
             "  0 is the roster: name one that is accepted; 2 is the empty submission", number,
             report[PLACE_AT]);
    got[report[PLACE_AT] - 1] = number;
}

/* The number that each gets from a district's run. */
static void district(uint32_t got[])
{
    struct file buffer = {0};
    uint32_t lengths[HIRELOG_DISTRICT_MAX];
    uint8_t report[HIRELOG_DISTRICT_REPORT_MAX];
    for (size_t i = 0; i < count; i++) {
        lengths[i] = (uint32_t)submissions[i].file.len;
        if (append(&buffer, submissions[i].file.bytes, submissions[i].file.len))
            stop("the buffers", "no memory", "free some");
    }
    uint32_t number = hirelog_district(roster.bytes, roster.len, buffer.bytes, buffer.len, lengths,
                                       count, report, sizeof report);
    if (number != HIRELOG_OK)
        fail("the run is refused with number %" PRIu32 ": name a roster that is accepted", number);
    for (size_t i = 0; i < count; i++)
        got[i] = report[i];
}

/* Makes the call, with a breakpoint at absorb. */
static void count_blocks(void (*call)(uint32_t got[]))
{
    uint32_t got[HIRELOG_DISTRICT_MAX] = {0};
    guarded_watch(TOOL, under_way);
    signal(SIGALRM, on_alarm);
    alarm(TWO_MINUTES);
    int problem = breakpoint_set(absorb, see_block);
    if (problem == EFAULT)
        stop("ADDRESS", "not in this program's code", "link with -no-pie, and take it from nm");
    if (problem)
        stop("ADDRESS", strerror(problem), "run it where a program may write to its own code");
    call(got);
    breakpoint_clear();
    for (size_t i = 0; i < count; i++)
        if (got[i] != submissions[i].number)
            fail("%s gets number %" PRIu32 ", and not %" PRIu32, submissions[i].path, got[i],
                 submissions[i].number);
}

/* ---- what was counted */

static void print_counts(void)
{
    for (size_t i = 0; i < count; i++) {
        const struct submission *s = &submissions[i];
        unsigned low = s->strings[0].hashed, high = low;
        for (size_t k = 1; k < s->records; k++) {
            unsigned hashed = s->strings[k].hashed;
            low = hashed < low ? hashed : low;
            high = hashed > high ? hashed : high;
        }
        printf("submission %zu number %" PRIu32 " records %zu hashed %u to %u\n", i + 1, s->number,
               s->records, low, high);
    }
    printf("blocks %lu\n", blocks);
}

/* Holds the count of a record, by its number from 0, to how often each submission may have it. */
static void check_record(const struct submission *s, size_t i)
{
    const struct chain_string *string = &s->strings[i];
    unsigned least = 0, most = 0;
    for (const struct submission *t = submissions; t < submissions + count; t++) {
        if (!has_string(t, i + 1, string->block))
            continue;
        least += t->number == HIRELOG_OK ? times : 0;
        most += t->number == HIRELOG_OK || t->number >= HIRELOG_LEADER ? times : 0;
    }
    if (string->hashed < least || string->hashed > most)
        fail("the chain string of record %zu of %s is hashed %u times, and right is %u to %u\n"
             "  log_chain::next_pointer hashes chain strings: look for who walks a log by it",
             i + 1, s->path, string->hashed, least, most);
}

static void check_counts(void)
{
    unsigned long hashed = 0;
    for (const struct submission *s = submissions; s < submissions + count; s++)
        for (size_t i = 0; i < s->records; i++)
            hashed += s->strings[i].hashed;
    if (blocks == 0)
        fail("no block was seen\n"
             "  ADDRESS is not that of sha256::State::absorb (ask nm), or the compiler has put\n"
             "  its code into its callers (ask objdump -d)");
    if (hashed == 0 && times > 0)
        fail("of the blocks seen none begins a chain string\n"
             "  ADDRESS is that of another function (ask nm), sha256::State::absorb has not its\n"
             "  block behind rdx any more (ask objdump -d), or other code hashes records");
    for (const struct submission *s = submissions; s < submissions + count; s++)
        for (size_t i = 0; i < s->records; i++)
            check_record(s, i);
}

/* ---- the arguments */

/* A number in an argument. */
static uintptr_t number_of(const char *text, int base, uintptr_t most, const char *hint)
{
    char *end;
    errno = 0;
    unsigned long number = strtoul(text, &end, base);
    if (errno || end == text || *end || *text == '-' || number > most)
        stop(text, "not a number that can stand here", hint);
    return number;
}

static void read_submission(const char *number, const char *path)
{
    struct submission *s = &submissions[count++];
    s->path = path;
    s->number = (uint32_t)number_of(number, 10, HIRELOG_BAD_SIGNATURE, "NUMBER is 0, or 5 to 15");
    if (s->number > 0 && s->number < HIRELOG_SIZE)
        stop(number, "not a submission's number", "NUMBER is 0, or 5 to 15");
    read_input(&s->file, path, "name a file that can be read");
    make_strings(s);
    if (s->records == 0)
        stop(path, "it has no record, so nothing can be counted", "name one that has");
}

/* Whether a submission is accepted and has a record, so that blocks have to be seen. */
static int shows_blocks(const struct submission *s)
{
    return s->number == HIRELOG_OK && s->records > 0;
}

int main(int argc, char **argv)
{
    int is_district = argc > 3 && strcmp(argv[3], "district") == 0, shown = 0;
    int least = is_district ? 2 : 1, most = is_district ? HIRELOG_DISTRICT_MAX : 2;
    if (argc % 2 == 0 || argc < 5 + 2 * least || argc > 5 + 2 * most ||
        (!is_district && strcmp(argv[3], "audit") != 0)) {
        fprintf(stderr,
                "usage: pointer_count ADDRESS TIMES audit ROSTER NUMBER FILE [NUMBER FILE]\n"
                "       pointer_count ADDRESS TIMES district ROSTER NUMBER FILE NUMBER FILE ..\n");
        return 2;
    }
    absorb = number_of(argv[1], 16, UINTPTR_MAX, "ADDRESS is in hex, as nm prints it");
    times = (unsigned)number_of(argv[2], 10, 1000, "TIMES is how often a record is hashed, 1");
    read_input(&roster, argv[4], "name a file that can be read");
    for (int i = 5; i < argc; i += 2)
        read_submission(argv[i], argv[i + 1]);
    for (size_t i = 0; i < (is_district ? count : 1); i++)
        shown |= shows_blocks(&submissions[i]);
    if (!shown)
        stop("the submissions", "none has to be hashed, so nothing would show that blocks are seen",
             "name one that is accepted and has a record, in an audit first");
    snprintf(under_way, sizeof under_way, "  hirelog_%s of %s%s\n", argv[3], argv[6],
             count > 1 ? " and others" : "");
    count_blocks(is_district ? district : audit);
    print_counts();
    check_counts();
    return 0;
}
