/* What the benchmarks measure with. Before any header: #define _GNU_SOURCE */
#ifndef TIMING_H
#define TIMING_H

#include <sched.h>
#include <time.h>

static inline double clock_ns(clockid_t clock)
{
    struct timespec t;
    clock_gettime(clock, &t);
    return (double)t.tv_sec * 1e9 + (double)t.tv_nsec;
}

static inline double now_ns(void)
{
    return clock_ns(CLOCK_MONOTONIC);
}

/* The time that this thread was running: for work so long that others run in between. */
static inline double worked_ns(void)
{
    return clock_ns(CLOCK_THREAD_CPUTIME_ID);
}

/* Stays on the processor it is on, and a child with it. */
static inline void stay(void)
{
    cpu_set_t set;
    int cpu = sched_getcpu();
    CPU_ZERO(&set);
    if (cpu < 0)
        return;
    CPU_SET((size_t)cpu, &set);
    sched_setaffinity(0, sizeof set, &set);
}

#endif
