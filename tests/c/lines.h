/*
 * A file that is read line by line, as files of vectors are.
 * Before any header: #define _GNU_SOURCE
 */
#ifndef LINES_H
#define LINES_H

#include <stdio.h>
#include <stdlib.h>

struct lines {
    const char *path;
    FILE *file;
    char *text; /* the line, with the newline at its end */
    size_t room;
    unsigned long number; /* the line's, from 1 */
};

/* Begins with the file, before its first line. */
static inline void open_lines(struct lines *lines, const char *path)
{
    *lines = (struct lines){.path = path, .file = fopen(path, "r")};
}

/* Takes the next line; whether there is one. */
static inline int next_line(struct lines *lines)
{
    if (!lines->file || getline(&lines->text, &lines->room, lines->file) <= 0)
        return 0;
    lines->number++;
    return 1;
}

/*
 * Ends with the file, after its last line or at one that is not what it should be. NULL, or what is
 * wrong, until the next file ends: wanted says what the line is not, or is NULL.
 */
static inline const char *close_lines(struct lines *lines, const char *wanted)
{
    static char problem[400];
    problem[0] = '\0';
    if (!lines->file)
        snprintf(problem, sizeof problem, "cannot open %s", lines->path);
    else if (wanted)
        snprintf(problem, sizeof problem, "%s line %lu is not %s", lines->path, lines->number,
                 wanted);
    else if (ferror(lines->file) || lines->number == 0)
        snprintf(problem, sizeof problem, "%s has no line, or is unreadable", lines->path);
    if (lines->file)
        fclose(lines->file);
    free(lines->text);
    return problem[0] == '\0' ? NULL : problem;
}

#endif
