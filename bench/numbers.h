/* Big-endian numbers in bytes; compilers make one load or store with a swap of each. */
#ifndef NUMBERS_H
#define NUMBERS_H

#include <arpa/inet.h>
#include <stdint.h>
#include <string.h>

static inline uint32_t word_at(const uint8_t *at)
{
    return (uint32_t)at[0] << 24 | (uint32_t)at[1] << 16 | (uint32_t)at[2] << 8 | at[3];
}

static inline uint32_t half_at(const uint8_t *at)
{
    return (uint32_t)at[0] << 8 | at[1];
}

/* By a copy and not byte by byte: of several such words in a row gcc 12 makes no plain stores. */
static inline void put_word(uint8_t *at, uint32_t value)
{
    uint32_t big_endian = htonl(value);
    memcpy(at, &big_endian, sizeof big_endian);
}

static inline void put_half(uint8_t *at, uint32_t value)
{
    at[0] = (uint8_t)(value >> 8);
    at[1] = (uint8_t)value;
}

#endif
