/*
 * Reads the files of LMS vectors. A line is a name, 1 for a good signature and 0 for a bad one, the
 * key, the message and the signature in hex; - stands for no bytes.
 * Before any header: #define _GNU_SOURCE
 */
#ifndef LMS_VECTORS_H
#define LMS_VECTORS_H

#include "hex.h"
#include "lines.h"

struct lms_vector {
    char name[100];
    int good;
    uint8_t key[64], message[4096], signature[16384];
    size_t key_len, message_len, signature_len;
};

/* Takes a line apart, at its spaces; whether it is as above. */
static int read_lms_vector(char *line, struct lms_vector *vector)
{
    char *field[5], *rest = NULL;
    for (int i = 0; i < 5; i++) {
        field[i] = strtok_r(i == 0 ? line : NULL, " \n", &rest);
        if (!field[i])
            return 0;
    }
    long key_len = decode_hex(field[2], vector->key, sizeof vector->key);
    long message_len = decode_hex(field[3], vector->message, sizeof vector->message);
    long signature_len = decode_hex(field[4], vector->signature, sizeof vector->signature);
    snprintf(vector->name, sizeof vector->name, "%s", field[0]);
    vector->good = strcmp(field[1], "1") == 0;
    vector->key_len = (size_t)key_len;
    vector->message_len = (size_t)message_len;
    vector->signature_len = (size_t)signature_len;
    return key_len >= 0 && message_len >= 0 && signature_len >= 0 &&
           (vector->good || strcmp(field[1], "0") == 0) && !strtok_r(NULL, " \n", &rest);
}

/* Calls use on each line of the file, in order; NULL, or what is wrong with the file. */
static const char *for_each_lms_vector(const char *path, void (*use)(const struct lms_vector *))
{
    static struct lms_vector vector;
    struct lines lines;
    open_lines(&lines, path);
    while (next_line(&lines)) {
        if (!read_lms_vector(lines.text, &vector))
            return close_lines(&lines, "an LMS vector");
        use(&vector);
    }
    return close_lines(&lines, NULL);
}

#endif
