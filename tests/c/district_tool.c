/*
 * A tool of the bench for a district's run (document 02, W1): hands hirelog_district its buffers
 * and prints what it gives.
 *
 *   district_tool FOLDER                           the folder's files roster, and 1, 2, .. as far
 *                                                  as they go; or roster, buffer and lengths
 *                                                  (numbers of the machine, 4 bytes each)
 *   district_tool REPORT_LENGTH ROSTER [FILE..]    a roster and submissions, as many as are named
 *
 * The report has 4 bytes more than there are lengths, or as many as asked for, by the folder's file
 * report_length too. Printed are the number, the report's buffer in hex, and the lines of the
 * command hirelog district. A folder is one that make_cases writes, or compare where the library
 * fails; if it has a file report, the report must begin with those bytes.
 *
 * The run is made several times, and each call must give the same. In the first an unreadable page
 * stands right after each buffer, in the second right before it, and in the third, if there are
 * buffers of no bytes, these are NULL. Roster, submissions and lengths cannot be written. No byte in
 * or around the report may change but, with number 0, its first ones, 4 more than there are lengths.
 * The number must be one of a run, and 17, 18 and 1 must be given where they apply, if the roster is
 * not refused, and nowhere else. The exit status is 0 if that held, whatever the number; 1 if not; 2
 * if a file cannot be read.
 */
#define _GNU_SOURCE
#define TOOL "district_tool"
#define OUTPUT "report"
#include "report.h"
#include "tool.h"

enum { ROSTER, BUFFER, LENGTHS };

static const char *const file_names[INPUTS] = {"roster", "buffer", "lengths"};

/* Document 02's numbers: the least submissions, the bytes of a report after theirs. */
enum { COUNT_LEAST = 2, AFTER_NUMBERS = 4 };

static size_t count;

static struct answer call_library(const uint8_t *const lent[INPUTS], uint8_t *report)
{
    struct answer answer = {.output = report};
    size_t written = count + AFTER_NUMBERS;
    /* Pages are aligned, and the lengths have 4 bytes each, so they are too. */
    answer.number = hirelog_district(lent[ROSTER], inputs[ROSTER].len, lent[BUFFER],
                                     inputs[BUFFER].len, (const void *)lent[LENGTHS], count,
                                     report, output_len);
    if (answer.number == HIRELOG_OK && written <= output_len &&
        written <= HIRELOG_DISTRICT_REPORT_MAX)
        answer.written = written;
    return answer;
}

/* ---- what must hold */

/* The number that lengths and report get, if the roster is not refused. */
static uint32_t number_of_lengths(void)
{
    uint64_t sum = 0; /* below 2^64: a file has fewer than 2^32 lengths */
    for (size_t i = 0; i < count; i++) {
        uint32_t length;
        memcpy(&length, inputs[LENGTHS].bytes + sizeof length * i, sizeof length);
        sum += length;
    }
    if (count < COUNT_LEAST || count > HIRELOG_DISTRICT_MAX)
        return HIRELOG_LENGTH_COUNT;
    if (sum != inputs[BUFFER].len)
        return HIRELOG_LENGTH_SUM;
    return output_len < count + AFTER_NUMBERS ? HIRELOG_SHORT_REPORT : HIRELOG_OK;
}

/* Looks at the report of a run that was made. */
static void check_fields(const uint8_t *report)
{
    unsigned lower = report[count + 2], higher = report[count + 3];
    for (size_t i = 0; i < count; i++)
        if (report[i] != HIRELOG_OK && (report[i] < HIRELOG_SIZE || report[i] > HIRELOG_BAD_SIGNATURE))
            fail("a number that is no submission's");
    if (read_u16(report + count) >> REPLICAS_MOST != 0)
        fail("a replica named that no roster has");
    if (lower == 0 && higher == 0)
        return;
    if (lower == 0 || lower >= higher || higher > count)
        fail("a pair that is none");
    if (report[lower - 1] != HIRELOG_OK || report[higher - 1] != HIRELOG_OK)
        fail("a pair with a submission that was refused");
    if (read_u16(report + count) == 0)
        fail("a pair that forks, and nobody is named");
}

static void check_answer(const struct answer *answer)
{
    int roster_refused =
        answer->number >= HIRELOG_ROSTER_SIZE && answer->number <= HIRELOG_DUPLICATE_KEY;
    if (!roster_refused && answer->number != number_of_lengths())
        fail("number %" PRIu32 ", and not that of the lengths, %" PRIu32, answer->number,
             number_of_lengths());
    if (answer->written > 0)
        check_fields(answer->output);
}

/* The lines of the command hirelog district. */
static void print_lines(const struct answer *answer)
{
    const uint8_t *report = answer->output;
    print_output();
    printf("refusal %" PRIu32 "\n", answer->number);
    if (answer->written == 0)
        return;
    for (size_t i = 1; i <= count; i++)
        printf("submission %zu number %u\n", i, report[i - 1]);
    printf("fork %u %u\n", report[count + 2], report[count + 3]);
    for (unsigned k = 1; k <= REPLICAS_MOST; k++)
        if (read_u16(report + count) >> (k - 1) & 1)
            printf("board %u\n", k);
}

/* ---- the files */

/* Puts a submission after the others. */
static void take_submission(const struct file *submission, const char *path)
{
    uint32_t length = (uint32_t)submission->len;
    if (length != submission->len)
        stop(path, "too long for a length of 4 bytes", "name a shorter file");
    if (append(&inputs[BUFFER], submission->bytes, submission->len) ||
        append(&inputs[LENGTHS], &length, sizeof length))
        stop("the buffers", "no memory", "free some");
}

/* Reads the folder's roster and submissions, or its roster, buffer and lengths. */
static void read_folder(const char *folder)
{
    struct file file = {0};
    char name[32];
    read_part(folder, file_names[ROSTER], &inputs[ROSTER]);
    if (read_optional(folder, file_names[LENGTHS], &inputs[LENGTHS])) {
        read_part(folder, file_names[BUFFER], &inputs[BUFFER]);
        return;
    }
    inputs[LENGTHS] = (struct file){0};
    for (unsigned i = 1; snprintf(name, sizeof name, "%u", i), read_optional(folder, name, &file);
         i++) {
        take_submission(&file, name);
        free(file.bytes);
    }
}

static void read_files(char *const *paths)
{
    struct file file = {0};
    const char *hint = "name a file that can be read, /dev/null for no bytes";
    read_input(&inputs[ROSTER], *paths, hint);
    while (*++paths) {
        read_input(&file, *paths, hint);
        take_submission(&file, *paths);
        free(file.bytes);
    }
}

int main(int argc, char **argv)
{
    if (argc == 2) {
        read_folder(argv[1]);
    } else if (argc > 2) {
        read_files(argv + 2);
    } else {
        fprintf(stderr, "usage: district_tool FOLDER\n"
                        "       district_tool REPORT_LENGTH ROSTER [FILE..]\n");
        return 2;
    }
    count = inputs[LENGTHS].len / sizeof(uint32_t);
    if (inputs[LENGTHS].len % sizeof(uint32_t) != 0)
        stop("lengths", "ends inside a length", "write 4 bytes for each");
    output_len = count + AFTER_NUMBERS;
    if (argc == 2)
        read_output(argv[1]);
    else
        read_length(argv[1], argv[1]);
    run_calls(file_names);
    return 0;
}
