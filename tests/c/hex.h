/* Bytes as the vector files write them. */
#ifndef HEX_H
#define HEX_H

#include <stddef.h>
#include <stdint.h>
#include <string.h>

/* Decodes hex (- for no bytes) to at most room_len bytes; their count, or -1 if it is not that. */
static long decode_hex(const char *hex, uint8_t *bytes, size_t room_len)
{
    static const char digits[] = "0123456789abcdef";
    if (strcmp(hex, "-") == 0)
        return 0;
    size_t len = strlen(hex);
    if (len == 0 || len % 2 != 0 || len / 2 > room_len)
        return -1;
    for (size_t i = 0; i < len; i += 2) {
        const char *high = strchr(digits, hex[i]), *low = strchr(digits, hex[i + 1]);
        if (!high || !low)
            return -1;
        bytes[i / 2] = (uint8_t)((high - digits) * 16 + (low - digits));
    }
    return (long)(len / 2);
}

#endif
