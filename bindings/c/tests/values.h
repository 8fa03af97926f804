/* What the tests of the stateless calls share: numbers by the names that the vectors have, and hexadecimal digits. */
#ifndef VALUES_H
#define VALUES_H

#include <ctype.h>
#include <stdio.h>
#include <stdlib.h>
#include <string.h>

#include "navbridge.h"
#include "wants.h"

typedef struct field {
    const char *name;
    size_t at;
} field;

/* Puts a number of 32 bits, with a sign or without, wherever its name stands; whether it stands somewhere. */
static inline int put(void *into, const field *fields, size_t count, const char *name, const char *value) {
    uint32_t bits = (uint32_t)(unsigned long long)atoll(value);
    int is_there = 0;
    size_t i;
    for (i = 0; i < count; i++)
        if (strcmp(fields[i].name, name) == 0) {
            memcpy((char *)into + fields[i].at, &bits, sizeof bits);
            is_there = 1;
        }
    return is_there;
}

static inline size_t bytes_of(const char *hex, uint8_t *into) {
    size_t n = 0;
    unsigned byte;
    while (isxdigit((unsigned char)hex[2 * n]) && sscanf(hex + 2 * n, "%2x", &byte) == 1) into[n++] = (uint8_t)byte;
    return n;
}

#endif
