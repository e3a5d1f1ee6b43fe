/*
 * Document 01's bench tool: hands hirelog_audit four byte buffers and prints what it gives.
 *
 *   audit_tool ROSTER FIRST SECOND [REPORT_LENGTH]   buffers from three files, a report of 53 bytes
 *                                                    or as many as asked for
 *   audit_tool FOLDER                                the same with the folder's files roster,
 *                                                    first, second, and report_length if there is
 *                                                    one
 *
 * Printed are the number, the report's buffer in hex, and the lines of document 01's program. The
 * folder is one that make_cases writes, or compare where the library fails; if it has a file
 * report, the report must begin with those bytes.
 *
 * The audit is called several times, and each call must give the same. In the first an unreadable
 * page stands right after each buffer, in the second right before it, and in the third, if there
 * are buffers of no bytes, these are NULL. The roster and the submissions cannot be written, and no
 * byte in or around the report may change but its first 53, none with number 1. The exit status is
 * 0 if that held, whatever the number; 1 if not; 2 if a file cannot be read.
 */
#define _GNU_SOURCE
#define TOOL "audit_tool"
#define OUTPUT "report"
#include "report.h"
#include "tool.h"

enum { ROSTER, FIRST, SECOND };

static const char *const file_names[INPUTS] = {"roster", "first", "second"};
static const char *const input_names[INPUTS] = {"roster", "first submission", "second submission"};

static struct answer call_library(const uint8_t *const lent[INPUTS], uint8_t *report)
{
    struct answer answer = {.output = report};
    answer.number = hirelog_audit(lent[ROSTER], inputs[ROSTER].len, lent[FIRST], inputs[FIRST].len,
                                  lent[SECOND], inputs[SECOND].len, report, output_len);
    if (answer.number != HIRELOG_SHORT_REPORT && output_len >= HIRELOG_REPORT_SIZE)
        answer.written = HIRELOG_REPORT_SIZE;
    return answer;
}

static void check_answer(const struct answer *answer)
{
    if ((answer->number == HIRELOG_SHORT_REPORT) != (output_len < HIRELOG_REPORT_SIZE))
        fail("number 1 for a report that is long enough, or another for one that is not");
    if (answer->written > 0 && answer->output[NUMBER_AT] != answer->number)
        fail("the number returned is not the report's");
}

/* The lines of document 01's program. */
static void print_lines(const struct answer *answer)
{
    const uint8_t *report = answer->output;
    print_output();
    if (answer->written == 0)
        return;
    printf("refusal %u in %u\n", report[NUMBER_AT], report[PLACE_AT]);
    printf("fork %" PRIu32 "\n", report_fork(report));
    for (unsigned k = 1; k <= REPLICAS_MOST; k++)
        if (report_named(report) >> (k - 1) & 1)
            printf("board %u rule %u term %" PRIu32 "\n", k, report_rule(report, k),
                   report_term(report, k));
}

int main(int argc, char **argv)
{
    output_len = HIRELOG_REPORT_SIZE;
    if (argc == 2) {
        for (int i = 0; i < INPUTS; i++)
            read_part(argv[1], file_names[i], &inputs[i]);
        read_output(argv[1]);
    } else if (argc == 4 || argc == 5) {
        for (int i = 0; i < INPUTS; i++)
            read_input(&inputs[i], argv[1 + i], "name a file that can be read, /dev/null for no bytes");
        if (argc == 5)
            read_length(argv[4], argv[4]);
    } else {
        fprintf(stderr, "usage: audit_tool ROSTER FIRST SECOND [REPORT_LENGTH]\n"
                        "       audit_tool FOLDER\n");
        return 2;
    }
    run_calls(input_names);
    return 0;
}
