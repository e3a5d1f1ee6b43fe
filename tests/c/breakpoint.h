/*
 * A breakpoint that a program sets in itself: at each call of a function another one is shown the
 * registers, and the call goes on.
 *
 * The function's first byte is replaced by int3. At its trap the byte is put back, and one
 * instruction is done with the processor's trap flag; at the trap after it int3 is put there again.
 * So nobody has to be allowed to trace a process.
 *
 * For x86-64 Linux, and one thread. Call guarded_watch first. Before any header: #define _GNU_SOURCE
 */
#ifndef BREAKPOINT_H
#define BREAKPOINT_H

#if !defined __x86_64__ || !defined __linux__
#error "a breakpoint is set, and registers are read, as x86-64 Linux has them"
#endif

#include "guarded.h"

enum { INT3 = 0xcc, TRAP_FLAG = 1 << 8 };

extern const uint8_t __executable_start[], etext[]; /* the linker's: where code is */

static uint8_t *breakpoint_at, breakpoint_kept; /* the first byte's place, and what stood there */
static int breakpoint_stepping;
static void (*breakpoint_show)(const greg_t *registers);

static inline void breakpoint_on_trap(int number, siginfo_t *info, void *context)
{
    greg_t *registers = ((ucontext_t *)context)->uc_mcontext.gregs;
    (void)number;
    (void)info;
    if (breakpoint_stepping) {
        *breakpoint_at = INT3;
        registers[REG_EFL] &= ~(greg_t)TRAP_FLAG;
    } else if (registers[REG_RIP] == (greg_t)(uintptr_t)breakpoint_at + 1) {
        breakpoint_show(registers);
        *breakpoint_at = breakpoint_kept;
        registers[REG_RIP]--;
        registers[REG_EFL] |= TRAP_FLAG;
    } else {
        guarded_say_failed("a trap in the call, where no breakpoint is: look at the core with gdb");
        _exit(1);
    }
    breakpoint_stepping = !breakpoint_stepping;
}

/* Sets the breakpoint at an address of code; 0, or the error's number. */
static inline int breakpoint_set(uintptr_t address, void (*show)(const greg_t *registers))
{
    size_t page = guarded_round(1);
    struct sigaction action = {.sa_sigaction = breakpoint_on_trap, .sa_flags = SA_SIGINFO};
    if (address < (uintptr_t)__executable_start || address >= (uintptr_t)etext)
        return EFAULT;
    if (mprotect((void *)(address / page * page), page, PROT_READ | PROT_WRITE | PROT_EXEC) != 0 ||
        sigaction(SIGTRAP, &action, NULL) != 0)
        return errno;
    breakpoint_show = show;
    breakpoint_at = (uint8_t *)address;
    breakpoint_kept = *breakpoint_at;
    *breakpoint_at = INT3;
    return 0;
}

/* Takes it away. */
static inline void breakpoint_clear(void)
{
    *breakpoint_at = breakpoint_kept;
}

#endif
