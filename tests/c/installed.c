/*
 * A caller that has nothing but what tools/install puts below a folder: audits three files and
 * prints the lines of document 01's program.
 *
 *   installed ROSTER FIRST SECOND
 *
 * The exit status is 0 whatever the number, and 2 if a file cannot be read.
 */
#include <hirelog.h>

#include <inttypes.h>
#include <stdio.h>
#include <stdlib.h>

enum { ROSTER, FIRST, SECOND, INPUTS };

static uint8_t inputs[INPUTS][1 << 16]; /* no sample is larger */
static size_t lengths[INPUTS];

static void read_input(int which, const char *path)
{
    FILE *from = fopen(path, "rb");
    if (from)
        lengths[which] = fread(inputs[which], 1, sizeof inputs[which], from);
    if (!from || !feof(from)) {
        fprintf(stderr, "installed: %s: name a file that can be read, below 65,536 bytes\n", path);
        exit(2);
    }
    fclose(from);
}

static uint32_t number_at(const uint8_t *at)
{
    return (uint32_t)at[0] << 24 | (uint32_t)at[1] << 16 | (uint32_t)at[2] << 8 | at[3];
}

int main(int argc, char **argv)
{
    uint8_t report[HIRELOG_REPORT_SIZE];
    if (argc != 1 + INPUTS) {
        fprintf(stderr, "use: installed ROSTER FIRST SECOND\n");
        return 2;
    }
    for (int i = 0; i < INPUTS; i++)
        read_input(i, argv[1 + i]);
    uint32_t number = hirelog_audit(inputs[ROSTER], lengths[ROSTER], inputs[FIRST], lengths[FIRST],
                                    inputs[SECOND], lengths[SECOND], report, sizeof report);
    printf("refusal %" PRIu32 " in %u\nfork %" PRIu32 "\n", number, report[1],
           number_at(report + 2));
    for (int k = 1; k <= 9; k++) {
        const uint8_t *row = report + 8 + 5 * (k - 1);
        if (row[0] != 0)
            printf("board %d rule %u term %" PRIu32 "\n", k, row[0], number_at(row + 1));
    }
    return 0;
}
