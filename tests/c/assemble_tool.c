/*
 * A tool of the bench for the assembling of a submission (document 02, W3): hands hirelog_assemble
 * its buffers and prints what it gives.
 *
 *   assemble_tool FOLDER                                the folder's files roster, log and items
 *   assemble_tool OUTPUT_LENGTH ROSTER LOG ITEMS        the same of three files
 *
 * The output has as many bytes as asked for, by the folder's file submission_length too; else as
 * many as its file submission has, or as the longest one needs. Printed are the number and the lines
 * of the command hirelog assemble, but for the term without a leader. A folder is one that
 * make_cases writes, or compare where the library fails; if it has a file submission, the output
 * must begin with those bytes.
 *
 * The call is made several times, and each must give the same. In the first an unreadable page
 * stands right after each buffer, in the second right before it, and in the third, if there are
 * buffers of no bytes, these are NULL. Roster, log and items cannot be written. No byte in or around
 * the output may change but, with number 0, as many of its first ones as the length says; with
 * another the length must be 0. If the roster is not refused, 8, 11 and 19 must be given where they
 * apply, in that order, and nowhere else; of a longer output number 20 must come again, and for 21 a
 * submission that is too long for this one. What is written must begin with the log, have the
 * roster's name and as many records in its trailer, and be accepted by the audit beside itself. The
 * exit status is 0 if that held, whatever the number; 1 if not; 2 if a file cannot be read.
 */
#define _GNU_SOURCE
#define TOOL "assemble_tool"
#define OUTPUT "submission"
#include "items.h"
#include "report.h"
#include "submission.h"
#include "tool.h"

enum { ROSTER, LOG, ITEMS };

static const char *const file_names[INPUTS] = {"roster", "log", "items"};

static struct answer call_library(const uint8_t *const lent[INPUTS], uint8_t *output)
{
    struct hirelog_written written =
        hirelog_assemble(lent[ROSTER], inputs[ROSTER].len, lent[LOG], inputs[LOG].len, lent[ITEMS],
                         inputs[ITEMS].len, output, output_len);
    return (struct answer){written.number, written.length, output};
}

/* ---- what must hold */

/* The number that log and items get, if the roster is not refused. */
static uint32_t number_of_inputs(void)
{
    uint32_t number = number_of_log(inputs[LOG].bytes, inputs[LOG].len);
    if (number == HIRELOG_OK)
        number = number_of_items(inputs[ITEMS].bytes, inputs[ITEMS].len,
                                 signature_size(inputs[ROSTER].bytes));
    return number;
}

/* With an output that always does, number 20 must come again, and in place of 21 a long submission. */
static void check_longer(const struct answer *answer)
{
    uint8_t *output = malloc(HIRELOG_ASSEMBLED_MAX);
    if (!output)
        stop("the buffers", "no memory", "free some");
    struct hirelog_written longer =
        hirelog_assemble(inputs[ROSTER].bytes, inputs[ROSTER].len, inputs[LOG].bytes,
                         inputs[LOG].len, inputs[ITEMS].bytes, inputs[ITEMS].len, output,
                         HIRELOG_ASSEMBLED_MAX);
    free(output);
    if (answer->number == HIRELOG_NO_LEADER && longer.number != HIRELOG_NO_LEADER)
        fail("number 20, and %" PRIu32 " for a longer output", longer.number);
    if (answer->number == HIRELOG_SHORT_OUTPUT &&
        (longer.number != HIRELOG_OK || longer.length <= output_len))
        fail("number 21, and for a longer output number %" PRIu32 " and %zu bytes", longer.number,
             longer.length);
}

/* Looks at a submission that was written. */
static void check_submission(const struct answer *answer)
{
    uint8_t report[HIRELOG_REPORT_SIZE];
    const uint8_t *written = answer->output, *trailer = written + answer->written - TRAILER_SIZE;
    if (answer->written < TRAILER_SIZE || answer->written > output_len)
        fail("a submission of %zu bytes in an output of %zu", answer->written, output_len);
    if (answer->written - TRAILER_SIZE < inputs[LOG].len ||
        (inputs[LOG].len > 0 && memcmp(written, inputs[LOG].bytes, inputs[LOG].len) != 0))
        fail("the submission does not begin with the log");
    if (memcmp(trailer, inputs[ROSTER].bytes, NAME_SIZE) != 0 ||
        read_u32(trailer + RECORDS_AT) != inputs[LOG].len / RECORD_SIZE ||
        read_u32(trailer + VERSION_AT) != 1)
        fail("a trailer with another name, number of records or version");
    uint32_t number =
        hirelog_audit(inputs[ROSTER].bytes, inputs[ROSTER].len, written, answer->written, written,
                      answer->written, report, sizeof report);
    if (number != HIRELOG_OK || report_fork(report) != 0 || report_named(report) != 0)
        fail("the audit of the submission beside itself gives number %" PRIu32
             ", a fork or a replica named", number);
}

static void check_answer(const struct answer *answer)
{
    uint32_t number = answer->number;
    if (number != HIRELOG_OK && answer->written != 0)
        fail("number %" PRIu32 " with a length of %zu", number, answer->written);
    if (number >= HIRELOG_ROSTER_SIZE && number <= HIRELOG_DUPLICATE_KEY)
        return;
    uint32_t right = number_of_inputs();
    int of_items = number == HIRELOG_OK || number == HIRELOG_NO_LEADER ||
                   number == HIRELOG_SHORT_OUTPUT;
    if (right != HIRELOG_OK ? number != right : !of_items)
        fail("number %" PRIu32 ", and log and items get %" PRIu32, number, right);
    if (number == HIRELOG_OK)
        check_submission(answer);
    else if (right == HIRELOG_OK)
        check_longer(answer);
}

/* ---- the lines of the command hirelog assemble */

static void print_signers(unsigned signers)
{
    printf(" signers");
    for (unsigned k = 1; k <= REPLICAS_MOST; k++)
        if (signers >> (k - 1) & 1)
            printf(" %u", k);
    printf("\n");
}

static void print_lines(const struct answer *answer)
{
    printf("refusal %" PRIu32 "\n", answer->number);
    if (answer->number != HIRELOG_OK)
        return;
    const uint8_t *trailer = answer->output + answer->written - TRAILER_SIZE;
    const uint8_t *at = answer->output + inputs[LOG].len;
    printf("length %zu\nrecords %" PRIu32 "\n", answer->written, read_u32(trailer + RECORDS_AT));
    for (uint32_t i = 0; i < read_u32(trailer + LEADERS_AT); i++) {
        unsigned signers = read_u16(at + LEADER_SIGNERS_AT);
        printf("term %" PRIu32 " board %u", read_u32(at + LEADER_TERM_AT), read_u16(at));
        print_signers(signers);
        at += LEADER_HEAD_SIZE + (unsigned)__builtin_popcount(signers) *
                                     signature_size(inputs[ROSTER].bytes);
    }
    uint32_t back = read_u32(trailer + COMMIT_AT);
    printf("commit %" PRIu32, back == 0 ? 0 : read_u32(trailer - back));
    if (back == 0)
        printf("\n");
    else
        print_signers(read_u16(trailer - back + COMMIT_SIGNERS_AT));
}

/* ---- the files */

int main(int argc, char **argv)
{
    if (argc == 2) {
        for (int i = 0; i < INPUTS; i++)
            read_part(argv[1], file_names[i], &inputs[i]);
        output_len = SIZE_MAX;
        read_output(argv[1]);
        if (output_len == SIZE_MAX)
            output_len = expected.bytes ? expected.len : HIRELOG_ASSEMBLED_MAX;
    } else if (argc == 2 + INPUTS) {
        read_length(argv[1], argv[1]);
        for (int i = 0; i < INPUTS; i++)
            read_input(&inputs[i], argv[2 + i], "name a file that can be read, /dev/null for no bytes");
    } else {
        fprintf(stderr, "usage: assemble_tool FOLDER\n"
                        "       assemble_tool OUTPUT_LENGTH ROSTER LOG ITEMS\n");
        return 2;
    }
    run_calls(file_names);
    return 0;
}
