/* The check of an LMS signature over OpenSSL's SHA-256, to measure against. */
#ifndef OPENSSL_LMS_H
#define OPENSSL_LMS_H

#include "portable_lms.h"

/* As portable_lms_good. */
int openssl_lms_good(const uint8_t *key, size_t key_len, const uint8_t *message, size_t message_len,
                     const uint8_t *signature, size_t signature_len,
                     struct portable_lms_blocks *blocks);

#endif
