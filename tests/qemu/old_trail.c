/* Writes the old core's trail of each program read from standard input. All numbers have four bytes, big-endian.
 *
 * A program: image length, base, data length, data base, the most steps to take; then the image and the data.
 * Its answer: the end, the end's number, how many words were passed, how many entries; then the entries
 * (address, registers 0 to 31, flags, Y, nesting) and the data as the run left it. */
#include <stdint.h>
#include <stdio.h>
#include <stdlib.h>
#include <string.h>

#include "pijorrel.h"

enum { MOST_IMAGE = 16384, MOST_DATA = 65536, MOST_STEPS = 4096, ENTRY = 4 * 36 };
enum { FLAGS = 4 * 32, PC = 4 * 33, ANNUL = 4 * 35, END = 4 * 36, Y = 4 * 38 };

static uint8_t image[MOST_IMAGE], data[MOST_DATA], entries[MOST_STEPS][ENTRY];

static uint32_t number_at(const uint8_t *at)
{
    return (uint32_t)at[0] << 24 | (uint32_t)at[1] << 16 | (uint32_t)at[2] << 8 | at[3];
}

static void put_number(uint32_t number)
{
    uint8_t bytes[4] = { number >> 24, number >> 16, number >> 8, number };
    fwrite(bytes, 1, 4, stdout);
}

static void read_bytes(uint8_t *to, uint32_t length, uint32_t most)
{
    if (length > most || fread(to, 1, length, stdin) != length) {
        fprintf(stderr, "old_trail: a program is cut off or too long\n");
        exit(1);
    }
}

static void note_entry(uint8_t *entry, const uint8_t *state)
{
    memcpy(entry, state + PC, 4);
    memcpy(entry + 4, state, FLAGS + 4); /* the registers, and the flags right after them */
    memcpy(entry + ENTRY - 8, state + Y, 8); /* the nesting right after it */
}

static void answer(const uint8_t *header)
{
    uint32_t image_length = number_at(header), base = number_at(header + 4);
    uint32_t data_length = number_at(header + 8), data_base = number_at(header + 12);
    uint32_t most_steps = number_at(header + 16), steps = 0, count = 0;
    uint8_t state[PIJORREL_OLD_STATE] = { 0 };
    struct pijorrel_end end = { 0, 0 };

    read_bytes(image, image_length, MOST_IMAGE);
    read_bytes(data, data_length, MOST_DATA);
    pijorrel_old_begin(base, state);
    for (; steps < most_steps && steps < MOST_STEPS && number_at(state + END) == 0; steps++) {
        if (number_at(state + ANNUL) == 0)
            note_entry(entries[count++], state);
        end = pijorrel_old_run(image, image_length, base, data_base, state, data, data_length, 1);
    }
    put_number(end.end);
    put_number(end.number);
    put_number(steps);
    put_number(count);
    fwrite(entries, ENTRY, count, stdout);
    fwrite(data, 1, data_length, stdout);
    fflush(stdout);
}

int main(void)
{
    uint8_t header[20];
    while (fread(header, 1, sizeof header, stdin) == sizeof header)
        answer(header);
    return 0;
}
