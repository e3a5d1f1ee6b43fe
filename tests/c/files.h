/* Whole files, for the programs in C. */
#ifndef FILES_H
#define FILES_H

#include <errno.h>
#include <stddef.h>
#include <stdint.h>
#include <stdio.h>
#include <stdlib.h>
#include <string.h>

struct file {
    uint8_t *bytes;
    size_t len;
};

/* Reads a file to its end; 0, or the error's number. */
static inline int read_file(const char *path, struct file *file)
{
    size_t room = 1 << 16, got;
    FILE *from = fopen(path, "rb");
    if (!from)
        return errno;
    file->len = 0;
    file->bytes = malloc(room);
    errno = 0;
    while (file->bytes && (got = fread(file->bytes + file->len, 1, room - file->len, from)) > 0) {
        file->len += got;
        if (file->len == room)
            file->bytes = realloc(file->bytes, room *= 2);
    }
    int problem = !file->bytes ? ENOMEM : !ferror(from) ? 0 : errno ? errno : EIO;
    fclose(from);
    return problem;
}

/* Puts bytes after those of a file; 0, or the error's number. */
static inline int append(struct file *to, const void *bytes, size_t len)
{
    if (len == 0)
        return 0;
    to->bytes = realloc(to->bytes, to->len + len);
    if (!to->bytes)
        return ENOMEM;
    memcpy(to->bytes + to->len, bytes, len);
    to->len += len;
    return 0;
}

#endif
