/*
 * A folder's files, and the call of the library that they are for: roster, first and second for an
 * audit; roster, 1, 2, .. for a district's run; roster, log and items for a submission to assemble.
 * All has to be accepted. A program defines BENCH, its name, before it includes this.
 */
#ifndef WORKS_H
#define WORKS_H

#include "files.h"
#include "hirelog.h"

enum { SUBMISSIONS_MOST = HIRELOG_DISTRICT_MAX };

enum call { AUDIT, DISTRICT, ASSEMBLE, CALLS };

static const char *const call_names[CALLS] = {"hirelog_audit", "hirelog_district",
                                              "hirelog_assemble"};

struct work {
    const char *folder;
    enum call call;
    struct file roster, submissions[SUBMISSIONS_MOST]; /* what is assembled is a submission, too */
    size_t submission_count;
    struct file joined; /* the submissions end to end, for a district's run */
    uint32_t lengths[SUBMISSIONS_MOST];
    struct file log, items, output; /* the output has room for the longest */
};

static _Noreturn void stop(const char *why, const char *what)
{
    fprintf(stderr, BENCH ": %s%s\n", why, what);
    exit(1);
}

/* ---- the calls, and whether all was accepted */

static int audit(const struct work *w)
{
    const struct file *first = &w->submissions[0], *second = &w->submissions[1];
    uint8_t report[HIRELOG_REPORT_SIZE];
    return hirelog_audit(w->roster.bytes, w->roster.len, first->bytes, first->len, second->bytes,
                         second->len, report, sizeof report) == HIRELOG_OK;
}

static int district(const struct work *w)
{
    static const uint8_t accepted[SUBMISSIONS_MOST];
    uint8_t report[HIRELOG_DISTRICT_REPORT_MAX];
    return hirelog_district(w->roster.bytes, w->roster.len, w->joined.bytes, w->joined.len,
                            w->lengths, w->submission_count, report,
                            sizeof report) == HIRELOG_OK &&
           memcmp(report, accepted, w->submission_count) == 0;
}

static struct hirelog_written assemble(const struct work *w)
{
    return hirelog_assemble(w->roster.bytes, w->roster.len, w->log.bytes, w->log.len,
                            w->items.bytes, w->items.len, w->output.bytes, w->output.len);
}

static int make_call(const struct work *w)
{
    if (w->call == ASSEMBLE) {
        struct hirelog_written written = assemble(w);
        return written.number == HIRELOG_OK && written.length == w->submissions[0].len;
    }
    return w->call == DISTRICT ? district(w) : audit(w);
}

/* ---- the files */

/* Reads a file of the folder; whether it is there. */
static int read_part(struct file *file, const char *folder, const char *name)
{
    char path[4096];
    snprintf(path, sizeof path, "%s/%s", folder, name);
    int problem = read_file(path, file);
    if (problem != 0 && problem != ENOENT)
        stop("it has to be readable: ", path);
    return problem == 0;
}

/* The submissions 1, 2, .. as far as they go, one by one and end to end. */
static void read_district(struct work *work)
{
    char name[2] = "1";
    for (size_t i = 0; i < SUBMISSIONS_MOST; i++, name[0]++) {
        struct file *file = &work->submissions[i];
        if (!read_part(file, work->folder, name))
            break;
        work->submission_count++;
        work->lengths[i] = (uint32_t)file->len;
        if (append(&work->joined, file->bytes, file->len))
            stop("no memory for ", work->folder);
    }
}

/* Room for what is assembled, and what it is. */
static void assemble_once(struct work *work)
{
    work->output.len = HIRELOG_ASSEMBLED_MAX;
    work->output.bytes = malloc(work->output.len);
    if (!work->output.bytes)
        stop("no memory for ", work->folder);
    size_t length = assemble(work).length;
    if (append(&work->submissions[0], work->output.bytes, length))
        stop("no memory for ", work->folder);
    work->submission_count = 1;
}

static void read_work(const char *folder, struct work *work)
{
    memset(work, 0, sizeof *work);
    work->folder = folder;
    int found = read_part(&work->roster, folder, "roster");
    if (read_part(&work->log, folder, "log")) {
        work->call = ASSEMBLE;
        found &= read_part(&work->items, folder, "items");
    } else if (read_part(&work->submissions[0], folder, "first")) {
        work->call = AUDIT;
        work->submission_count = 2;
        found &= read_part(&work->submissions[1], folder, "second");
    } else {
        work->call = DISTRICT;
        read_district(work);
        found &= work->submission_count >= 2;
    }
    if (!found)
        stop("make_cases has to write its roster and the other files first: ", folder);
    if (work->call == ASSEMBLE)
        assemble_once(work);
    if (!make_call(work))
        stop("the library does not accept ", folder);
}

#endif
