/* A stored file of cases: its bytes, and the areas that stand in it one after the other, each padded to four bytes. */
#ifndef TESTS_STORED_H
#define TESTS_STORED_H

#include <stddef.h>
#include <stdint.h>
#include <stdio.h>

enum { LARGEST_FILE = 1 << 20 };

/* How many bytes were read; 0 for a file that is not there. */
static inline size_t read_file(const char *path, uint8_t *bytes)
{
    FILE *file = fopen(path, "rb");
    size_t length;
    if (!file)
        return 0;
    length = fread(bytes, 1, LARGEST_FILE, file);
    fclose(file);
    return length;
}

/* The bytes of an area; NULL past the end, and from then on. */
static inline const uint8_t *take(const uint8_t **at, const uint8_t *end, size_t length)
{
    const uint8_t *from = *at;
    size_t padded = (length + 3) / 4 * 4;
    if (!from || padded > (size_t)(end - from))
        return *at = NULL;
    *at += padded;
    return from;
}

#endif
