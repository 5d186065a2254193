/* Checksums: CRC-32 a bit at a time and by a table of 16, Adler-32, Fletcher's sums, FNV's mixture and a sum of 64
 * bits. */
#include "image.h"

enum { LENGTH = 64 };

word results[RESULTS];
static byte bytes[LENGTH];
static word table[16];

static word crc_by_bits(const byte *from, int length)
{
    word crc = ~0u;
    for (int i = 0; i < length; i++) {
        crc ^= from[i];
        for (int bit = 0; bit < 8; bit++)
            crc = crc & 1 ? crc >> 1 ^ 0xEDB88320u : crc >> 1;
    }
    return ~crc;
}

static void make_table(void)
{
    for (word i = 0; i < 16; i++) {
        word crc = i;
        for (int bit = 0; bit < 4; bit++)
            crc = crc & 1 ? crc >> 1 ^ 0xEDB88320u : crc >> 1;
        table[i] = crc;
    }
}

static word crc_by_table(const byte *from, int length)
{
    word crc = ~0u;
    for (int i = 0; i < length; i++) {
        crc = crc >> 4 ^ table[(crc ^ from[i]) & 15];
        crc = crc >> 4 ^ table[(crc ^ from[i] >> 4) & 15];
    }
    return ~crc;
}

static word adler(const byte *from, int length)
{
    word low = 1, high = 0;
    for (int i = 0; i < length; i++) {
        low += from[i];
        low -= low >= 65521 ? 65521 : 0;
        high += low;
        high -= high >= 65521 ? 65521 : 0;
    }
    return high << 16 | low;
}

static word fletcher(const byte *from, int length)
{
    word low = 0, high = 0;
    for (int i = 0; i < length; i++) {
        low += from[i];
        low = (low & 255) + (low >> 8);
        high += low;
        high = (high & 255) + (high >> 8);
    }
    return (high == 255 ? 0 : high) << 8 | (low == 255 ? 0 : low);
}

/* FNV-1a, of 64 bits. */
static wide mixture(const byte *from, int length)
{
    wide value = 0xCBF29CE484222325u;
    for (int i = 0; i < length; i++)
        value = (value ^ from[i]) * 0x100000001B3u;
    return value;
}

/* In 64 bits, so that carries pass from one register to the next. */
static wide total(const wide *from, int count)
{
    wide sum = 0;
    for (int i = 0; i < count; i++)
        sum += from[i];
    return sum;
}

int main(void)
{
    static const wide numbers[5] = { 1, 0xFFFFFFFFFFFFFFFFu, 0x00000001FFFFFFFFu, 0x8000000000000000u, 0xFFFFFFFFu };
    word state = 88172645;
    for (int i = 0; i < LENGTH; i++)
        bytes[i] = (byte)drawn(&state);
    make_table();
    results[0] = crc_by_bits(bytes, 24);
    results[1] = crc_by_table(bytes, LENGTH);
    results[2] = adler(bytes, LENGTH);
    results[3] = fletcher(bytes, LENGTH);
    put_wide(results + 4, mixture(bytes, 32));
    put_wide(results + 6, total(numbers, 5));
    return 0;
}
