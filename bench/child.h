/*
 * A child in which OpenSSL has no SHA instructions. OpenSSL reads OPENSSL_ia32cap when it is
 * loaded, so the child is this program again, with that variable set. It measures a round for each
 * byte that it is sent and waits meanwhile, so its rounds take their turn among the others.
 * Before any header: #define _GNU_SOURCE
 */
#ifndef CHILD_H
#define CHILD_H

#include <fcntl.h>
#include <stdint.h>
#include <stdio.h>
#include <stdlib.h>
#include <string.h>
#include <sys/wait.h>
#include <unistd.h>

/*
 * The second part of OPENSSL_ia32cap, after the colon, is CPUID leaf 7: EBX in its low 32 bits.
 * Bit 29 of EBX says that there are SHA instructions; ~ clears the bits that follow.
 */
#define WITHOUT_SHA ":~0x20000000"

struct child {
    int to, from;
};

/* ---- in the parent */

/* Starts this program again with these arguments; whether that could be done. */
static inline int start_child(struct child *child, char *const arguments[])
{
    int down[2], up[2];
    if (pipe2(down, O_CLOEXEC) != 0 || pipe2(up, O_CLOEXEC) != 0)
        return 0;
    pid_t pid = fork();
    if (pid == 0) {
        dup2(down[0], STDIN_FILENO);
        dup2(up[1], STDOUT_FILENO);
        setenv("OPENSSL_ia32cap", WITHOUT_SHA, 1);
        execv("/proc/self/exe", arguments);
        _exit(1);
    }
    close(down[0]);
    close(up[1]);
    child->to = down[1];
    child->from = up[0];
    return pid > 0;
}

/* Asks for a round; whether its result came. */
static inline int ask_child(const struct child *child, uint8_t kind, void *result, size_t len)
{
    return write(child->to, &kind, 1) == 1 && read(child->from, result, len) == (ssize_t)len;
}

static inline void end_child(const struct child *child)
{
    close(child->to);
    wait(NULL);
}

/* ---- in the child */

/* Waits for the next round that is asked for; whether there is one. */
static inline int next_round(uint8_t *kind)
{
    return read(STDIN_FILENO, kind, 1) == 1;
}

static inline void send_result(const void *result, size_t len)
{
    if (write(STDOUT_FILENO, result, len) != (ssize_t)len)
        exit(1);
}

/* ---- in both */

static inline int cpu_has_sha(void)
{
    static char line[1 << 14];
    int found = 0;
    FILE *file = fopen("/proc/cpuinfo", "r");
    while (file && !found && fgets(line, sizeof line, file))
        found = strncmp(line, "flags", 5) == 0 && strstr(line, " sha_ni") != NULL;
    if (file)
        fclose(file);
    return found;
}

#endif
