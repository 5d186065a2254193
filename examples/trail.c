/* Prints the old core's trail over an image: an entry before each word that it executes, and how the run ended.
 *
 *   trail IMAGE [BASE]     the image is a file of big-endian words; it runs at BASE (0) from its first word
 */
#include "pijorrel.h"

#include "shared.h"

enum { MOST = 16384, MOST_STEPS = 200, FLAGS = 32, PC = 33, ANNUL = 35, Y = 38, NESTING = 39 };

/* The address and its word, the flags, and every register of the current window, Y and the nesting that is not 0. */
static void show(const uint8_t *state, const uint8_t *image, size_t length, uint32_t base)
{
    uint32_t pc = number_at(state, PC), offset = pc - base, flags = number_at(state, FLAGS);
    printf("%8u  ", (unsigned)pc);
    if ((uint64_t)offset + 4 <= length)
        printf("%08x", (unsigned)number_at(image + offset, 0));
    else
        printf("%8s", "-");
    printf("  %c%c%c%c", flags & 8 ? 'N' : '-', flags & 4 ? 'Z' : '-', flags & 2 ? 'V' : '-', flags & 1 ? 'C' : '-');
    for (size_t i = 1; i < 32; i++)
        if (number_at(state, i) != 0)
            printf("  r%u=%u", (unsigned)i, (unsigned)number_at(state, i));
    if (number_at(state, Y) != 0)
        printf("  Y=%u", (unsigned)number_at(state, Y));
    if (number_at(state, NESTING) != 0)
        printf("  nesting=%u", (unsigned)number_at(state, NESTING));
    printf("\n");
}

int main(int count, char **words)
{
    static uint8_t image[MOST], data[65536];
    uint8_t state[PIJORREL_OLD_STATE] = { 0 }; /* all bytes 0 are the start values */
    struct pijorrel_end end = { 0, 0 };
    if (count < 2) {
        fprintf(stderr, "usage: trail IMAGE [BASE]\n");
        return 2;
    }
    size_t length = load(words[1], image, sizeof image);
    uint32_t base = count > 2 ? (uint32_t)strtoul(words[2], NULL, 0) : 0;

    pijorrel_old_begin(base, state);
    printf("%8s  %8s  flags and registers\n", "address", "word");
    for (int steps = 0; end.end == 0 && steps < MOST_STEPS; steps++) {
        if (number_at(state, ANNUL) == 0) /* an annulled word has no entry */
            show(state, image, length, base);
        end = pijorrel_old_run(image, length, base, 0, state, data, sizeof data, 1);
    }
    printf("end %u (%s), %u\n", (unsigned)end.end, words_of_end(end.end), (unsigned)end.number);
    return 0;
}
