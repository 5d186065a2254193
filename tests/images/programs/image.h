/* What the programs share: where results go, and numbers that are the same at each run. They divide by shifts,
 * differences and products alone, since the cores know no other way. */
#ifndef IMAGE_H
#define IMAGE_H

typedef unsigned char byte;
typedef unsigned int word;
typedef unsigned long long wide;
typedef long long signed_wide;

enum { RESULTS = 16 };

/* A function that stays one of its own and keeps to the ABI at every level: one that returns a record then takes its
 * address, and returns past the unimp behind its call. */
#define APART __attribute__((noipa))

/* Where the known results are looked for, in big-endian words. */
extern word results[RESULTS];

/* Both words of a result of 64 bits. */
static inline void put_wide(word *at, wide value)
{
    at[0] = (word)(value >> 32);
    at[1] = (word)value;
}

/* Marsaglia's xorshift, begun with any number but 0. */
static inline word drawn(word *state)
{
    word x = *state;
    x ^= x << 13;
    x ^= x >> 17;
    x ^= x << 5;
    return *state = x;
}

#endif
