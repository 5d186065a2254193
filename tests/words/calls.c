/* Makes the calls of a stream of cases of words (words.bin in crates/cases/data, or what `reading file words` writes):
 * each word is read, and each instruction written, and what the library answers and leaves is held to what the case
 * says. An instruction stands between guard bytes.
 *
 *   word_calls [--bare] < CASES     with --bare no guards: each instruction is a block of its own of just its length,
 *                                   so that a checker of memory sees any access beside it
 *
 * Leaves with 0 if all are equal, 1 if some are not, 2 if the stream is not whole. */
#include <inttypes.h>
#include <stdbool.h>
#include <stdio.h>
#include <stdlib.h>
#include <string.h>

#include "pijorrel.h"

enum { READ = 0x574F5244, WRITE = 0x494E5354, FILL = 0xA5 };

/* Not a multiple of 4, so that no instruction is aligned. */
static size_t guard = 29;

/* What the calls met: words known and not, and instructions refused by the bits of the field. */
static uint32_t known_words, unknown_words, written, refused[33];

static void take(uint8_t *bytes, size_t length)
{
    if (fread(bytes, 1, length, stdin) != length) {
        fprintf(stderr, "the cases stop short\n");
        exit(2);
    }
}

static uint32_t take_number(void)
{
    uint8_t b[4];
    take(b, sizeof b);
    return (uint32_t)b[0] << 24 | (uint32_t)b[1] << 16 | (uint32_t)b[2] << 8 | b[3];
}

static uint8_t *lend(void)
{
    uint8_t *block = malloc(PIJORREL_INSTRUCTION + 2 * guard);
    if (!block) {
        fprintf(stderr, "no memory\n");
        exit(2);
    }
    if (guard > 0)
        memset(block, FILL, PIJORREL_INSTRUCTION + 2 * guard);
    return block;
}

/* Whether a block holds the instruction, and its guards stand. */
static bool holds(const uint8_t *block, const uint8_t *instruction)
{
    for (size_t i = 0; i < guard; i++)
        if (block[i] != FILL || block[guard + PIJORREL_INSTRUCTION + i] != FILL)
            return false;
    return memcmp(block + guard, instruction, PIJORREL_INSTRUCTION) == 0;
}

static bool reads_so(uint32_t word, const uint8_t *known)
{
    uint8_t *block = lend();
    pijorrel_read(word, block + guard);
    bool same = holds(block, known);
    free(block);
    return same;
}

static bool writes_so(const uint8_t *instruction, uint32_t number, uint32_t value)
{
    uint8_t *block = lend();
    memcpy(block + guard, instruction, PIJORREL_INSTRUCTION);
    struct pijorrel_written answer = pijorrel_write(block + guard);
    bool same = answer.number == number && answer.value == value && holds(block, instruction);
    free(block);
    return same;
}

static bool read_case(void)
{
    static const uint8_t unknown[PIJORREL_INSTRUCTION];
    uint8_t known[PIJORREL_INSTRUCTION];
    uint32_t word = take_number();
    take(known, sizeof known);
    uint32_t number = take_number(), value = take_number();
    if (memcmp(known, unknown, sizeof known) == 0)
        unknown_words++;
    else
        known_words++;
    return reads_so(word, known) && writes_so(known, number, value);
}

static bool write_case(void)
{
    uint8_t instruction[PIJORREL_INSTRUCTION];
    take(instruction, sizeof instruction);
    uint32_t number = take_number(), value = take_number();
    if (number == 0)
        written++;
    else
        refused[value % 33]++;
    return writes_so(instruction, number, value);
}

static bool next_case(uint32_t mark)
{
    if (mark == READ)
        return read_case();
    if (mark == WRITE)
        return write_case();
    fprintf(stderr, "a case of an unknown kind\n");
    exit(2);
}

static void print_met(void)
{
    printf("words: known %" PRIu32 ", not known %" PRIu32 "; instructions: written %" PRIu32 ", refused with",
           known_words, unknown_words, written);
    for (int bits = 0; bits < 33; bits++)
        if (refused[bits] > 0)
            printf(" %d: %" PRIu32, bits, refused[bits]);
    printf("\n");
}

int main(int count, char **words)
{
    uint32_t equal = 0;
    if (count > 2 || (count == 2 && strcmp(words[1], "--bare") != 0)) {
        fprintf(stderr, "usage: word_calls [--bare] < CASES\n");
        return 2;
    }
    if (count == 2)
        guard = 0;
    uint32_t cases = take_number();
    for (uint32_t k = 0; k < cases; k++) {
        bool same = next_case(take_number());
        equal += same;
        if (!same)
            printf("case %" PRIu32 " is not as the reading says\n", k);
    }
    printf("words: %" PRIu32 " of %" PRIu32 " equal\n", equal, cases);
    print_met();
    return cases == 0 || getchar() != EOF ? 2 : equal != cases;
}
