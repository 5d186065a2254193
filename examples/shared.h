/* What the examples share: numbers in bytes, files, and the ends of a run in words. */
#ifndef SHARED_H
#define SHARED_H

#include <stddef.h>
#include <stdint.h>
#include <stdio.h>
#include <stdlib.h>

/* The number at a position of an area of numbers. */
static inline uint32_t number_at(const uint8_t *bytes, size_t position)
{
    const uint8_t *at = bytes + 4 * position;
    return (uint32_t)at[0] << 24 | (uint32_t)at[1] << 16 | (uint32_t)at[2] << 8 | at[3];
}

static inline void put_number(uint8_t *bytes, size_t position, uint32_t number)
{
    for (int i = 0; i < 4; i++)
        bytes[4 * position + i] = (uint8_t)(number >> (24 - 8 * i));
}

/* Reads a file of at most so many bytes; leaves the program with 2 if that cannot be done. */
static inline size_t load(const char *path, uint8_t *bytes, size_t most)
{
    FILE *file = fopen(path, "rb");
    if (!file) {
        perror(path);
        exit(2);
    }
    size_t length = fread(bytes, 1, most, file);
    int more = length == most && getc(file) != EOF, failed = ferror(file);
    fclose(file);
    if (more || failed) {
        fprintf(stderr, more ? "%s has more than %zu bytes\n" : "%s cannot be read\n", path, most);
        exit(2);
    }
    return length;
}

static inline const char *words_of_end(uint32_t end)
{
    static const char *const ends[] = { "still going", "trap taken", "outside the image", "illegal word", "misaligned",
                                        "data access that does not fit", "no place", "bad record", "too many saves",
                                        "too many restores" };
    return end < 10 ? ends[end] : "no end";
}

#endif
