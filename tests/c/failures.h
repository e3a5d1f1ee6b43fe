/*
 * How a tool says what is wrong, and ends: with status 1 where the library fails, with 2 where it
 * could not be tried. A tool defines TOOL, its name, before it includes this. Before any header:
 * #define _GNU_SOURCE
 */
#ifndef FAILURES_H
#define FAILURES_H

#include "files.h"
#include "guarded.h"

#include <stdarg.h>
#include <unistd.h>

static char under_way[300]; /* the call, for the message of a failure or a fault */

__attribute__((format(printf, 1, 2))) static _Noreturn void fail(const char *format, ...)
{
    va_list values;
    va_start(values, format);
    printf(TOOL ": FAILED: ");
    vprintf(format, values);
    va_end(values);
    printf("\n%s", under_way);
    fflush(stdout);
    _exit(1);
}

static _Noreturn void stop(const char *path, const char *why, const char *hint)
{
    fprintf(stderr, TOOL ": %s: %s; %s\n", path, why, hint);
    exit(2);
}

static _Noreturn void guarded_stop(const char *why, const char *hint)
{
    stop("the buffers", why, hint);
}

static void read_input(struct file *file, const char *path, const char *hint)
{
    int problem = read_file(path, file);
    if (problem)
        stop(path, strerror(problem), hint);
}

#endif
