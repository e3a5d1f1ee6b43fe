/*
 * Buffers to call a function with, among unreadable pages. A call that reads or writes past its
 * buffer faults then and there, and what is said names the buffer and the byte. A buffer that is
 * lent cannot be written; one that is offered has guard bytes in it and around it, which show
 * afterwards what was written.
 *
 * For x86-64 Linux. Before any header: #define _GNU_SOURCE
 */
#ifndef GUARDED_H
#define GUARDED_H

#include <errno.h>
#include <signal.h>
#include <stddef.h>
#include <stdint.h>
#include <string.h>
#include <sys/mman.h>
#include <ucontext.h>
#include <unistd.h>

/* On which side of a buffer an unreadable page stands. */
enum guarded_side { PAGE_AFTER, PAGE_BEFORE };

/* The pages for one buffer of a call, unreadable but for those that hold it. */
struct guarded {
    const char *name; /* the buffer's */
    uint8_t *pages;   /* with an unreadable one before and after them */
    size_t size;
    uint8_t *open; /* the pages that hold the buffer */
    size_t open_size;
    uint8_t *bytes; /* the buffer */
    size_t len;
    unsigned turn; /* how often it was offered: each time with other guard bytes */
    struct guarded *next;
};

static struct guarded *guarded_all; /* where a fault is looked for */

/* Ends the program: there are no such pages. The one that includes this file defines it. */
static _Noreturn void guarded_stop(const char *why, const char *hint);

/* ---- the pages */

/* As many bytes, up to whole pages. */
static inline size_t guarded_round(size_t len)
{
    size_t page = (size_t)sysconf(_SC_PAGESIZE);
    return (len + page - 1) / page * page;
}

/* Makes the pages for a buffer of at most so many bytes. */
static inline void guarded_make(struct guarded *room, const char *name, size_t most)
{
    size_t page = guarded_round(1), size = guarded_round(most);
    uint8_t *all = mmap(NULL, size + 2 * page, PROT_NONE, MAP_PRIVATE | MAP_ANONYMOUS, -1, 0);
    if (all == MAP_FAILED)
        guarded_stop(strerror(errno), "free some memory");
    *room = (struct guarded){.name = name, .pages = all + page, .size = size, .next = guarded_all};
    room->open = room->bytes = room->pages;
    guarded_all = room;
}

static inline void guarded_allow(const struct guarded *room, int protection)
{
    if (mprotect(room->open, room->open_size, protection) != 0)
        guarded_stop(strerror(errno), "run it where mprotect is allowed");
}

/* Places the buffer, gap bytes from an unreadable page, and opens the pages that hold it alone. */
static inline void guarded_place(struct guarded *room, size_t len, enum guarded_side side,
                                 size_t gap)
{
    size_t span = len + gap;
    if (span > room->size)
        guarded_stop("a buffer is longer than its pages", "make room for it");
    guarded_allow(room, PROT_NONE);
    room->len = len;
    room->open_size = guarded_round(span);
    if (side == PAGE_AFTER) {
        room->open = room->pages + (room->size - room->open_size);
        room->bytes = room->pages + (room->size - span);
    } else {
        room->open = room->pages;
        room->bytes = room->pages + gap;
    }
    guarded_allow(room, PROT_READ | PROT_WRITE);
}

/* ---- a buffer that is read */

/* A copy of the bytes that can be read and not written, with an unreadable page at one side. */
static inline const uint8_t *guarded_lend(struct guarded *room, const uint8_t *bytes, size_t len,
                                          enum guarded_side side)
{
    guarded_place(room, len, side, 0);
    if (len > 0)
        memcpy(room->bytes, bytes, len);
    guarded_allow(room, PROT_READ);
    return room->bytes;
}

/* ---- a buffer that is written */

/* The guard byte so far from the buffer's start. */
static inline uint8_t guarded_byte(const struct guarded *room, ptrdiff_t at)
{
    return (uint8_t)(((unsigned)at * 37 + room->turn * 101) ^ 0xa5);
}

/* A buffer of guard bytes, among others, with an unreadable page gap bytes from one side. */
static inline uint8_t *guarded_offer(struct guarded *room, size_t len, enum guarded_side side,
                                     size_t gap)
{
    guarded_place(room, len, side, gap);
    room->turn++;
    for (size_t i = 0; i < room->open_size; i++)
        room->open[i] = guarded_byte(room, room->open + i - room->bytes);
    return room->bytes;
}

/*
 * Looks for a guard byte that has changed, but for the buffer's first written ones; whether there
 * is one. *at is then how far from the buffer's start.
 */
static inline int guarded_changed(const struct guarded *room, size_t written, ptrdiff_t *at)
{
    for (size_t i = 0; i < room->open_size; i++) {
        *at = room->open + i - room->bytes;
        if ((*at < 0 || *at >= (ptrdiff_t)written) && room->open[i] != guarded_byte(room, *at))
            return 1;
    }
    return 0;
}

/* ---- faults */

static const char *guarded_program, *guarded_doing;

static inline void guarded_say(const char *text)
{
    ssize_t ignored = write(STDOUT_FILENO, text, strlen(text));
    (void)ignored;
}

/* In decimal, without the library's printing, which a signal's handler must not call. */
static inline void guarded_say_number(ptrdiff_t number)
{
    char text[24] = "";
    size_t at = sizeof text - 1;
    size_t left = number < 0 ? -(size_t)number : (size_t)number;
    do
        text[--at] = (char)('0' + left % 10);
    while ((left /= 10) > 0);
    if (number < 0)
        text[--at] = '-';
    guarded_say(text + at);
}

/* Says which byte of which buffer is at the address. */
static inline void guarded_say_byte(const uint8_t *address)
{
    size_t page = guarded_round(1);
    const struct guarded *room = guarded_all;
    while (room && (address < room->pages - page || address >= room->pages + room->size + page))
        room = room->next;
    if (!room) {
        guarded_say((uintptr_t)address < page ? "NULL\n" : "what is no buffer's\n");
        return;
    }
    guarded_say("byte ");
    guarded_say_number(address - room->bytes);
    guarded_say(" (counted from 0) of the ");
    guarded_say(room->name);
    guarded_say(", which has ");
    guarded_say_number((ptrdiff_t)room->len);
    guarded_say(" bytes\n");
}

/* Says in a signal's handler what went wrong in the call, and what the program was doing. */
static inline void guarded_say_failed(const char *what)
{
    guarded_say(guarded_program);
    guarded_say(": FAILED: ");
    guarded_say(what);
    guarded_say("\n");
    guarded_say(guarded_doing);
}

/* A call that reads or writes what it must not ends here. */
static inline void guarded_on_fault(int number, siginfo_t *info, void *context)
{
    const greg_t *registers = ((const ucontext_t *)context)->uc_mcontext.gregs;
    guarded_say_failed("a fault (memory or instruction) in the call");
    if (number == SIGSEGV || number == SIGBUS) {
        guarded_say(registers[REG_ERR] & 2 ? "  written: " : "  read: "); /* of a page fault */
        guarded_say_byte(info->si_addr);
    }
    _exit(1);
}

/*
 * From now on a fault ends the program with status 1, and says what the program was doing: lines
 * that it keeps up to date.
 */
static inline void guarded_watch(const char *program, const char *doing)
{
    static const int faults[] = {SIGSEGV, SIGBUS, SIGILL, SIGFPE};
    struct sigaction action = {.sa_sigaction = guarded_on_fault, .sa_flags = SA_SIGINFO};
    guarded_program = program;
    guarded_doing = doing;
    for (size_t i = 0; i < sizeof faults / sizeof *faults; i++)
        if (sigaction(faults[i], &action, NULL) != 0)
            guarded_stop(strerror(errno), "run it where faults can be caught");
}

#endif
