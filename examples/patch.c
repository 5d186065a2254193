/* Puts an instruction in the place of a word of an image, and writes the image as it then is to standard output. What
 * was there and what is there now goes to standard error, as words and as the six numbers of an instruction.
 *
 *   patch IMAGE POSITION FORM ANNUL RD RS1 MARK VALUE     the position counts words, from 0; a value may be negative
 *
 * Leaves with 0, with 1 if a number does not fit its field or no word has the form, 2 if it is called otherwise.
 */
#include "pijorrel.h"

#include "shared.h"

enum { MOST = 16384, NUMBERS = 6 };

static void show(const char *when, uint32_t word)
{
    uint8_t instruction[PIJORREL_INSTRUCTION];
    pijorrel_read(word, instruction);
    fprintf(stderr, "%s %08x ", when, (unsigned)word);
    for (size_t i = 0; i < NUMBERS; i++)
        fprintf(stderr, " %u", (unsigned)number_at(instruction, i));
    fprintf(stderr, "\n");
}

static int refused(uint32_t bits)
{
    if (bits == 0)
        fprintf(stderr, "refused: no word has this form\n");
    else
        fprintf(stderr, "refused: a number does not fit its field of %u bits\n", (unsigned)bits);
    return 1;
}

int main(int count, char **words)
{
    static uint8_t image[MOST];
    uint8_t instruction[PIJORREL_INSTRUCTION];
    if (count != 3 + NUMBERS) {
        fprintf(stderr, "usage: patch IMAGE POSITION FORM ANNUL RD RS1 MARK VALUE\n");
        return 2;
    }
    size_t length = load(words[1], image, sizeof image), position = strtoul(words[2], NULL, 0);
    if (position >= length / 4) {
        fprintf(stderr, "%s has %u words\n", words[1], (unsigned)(length / 4));
        return 2;
    }
    for (int i = 0; i < NUMBERS; i++) /* a negative number is the one modulo 2^32 */
        put_number(instruction, i, (uint32_t)strtoll(words[3 + i], NULL, 0));
    struct pijorrel_written written = pijorrel_write(instruction);
    if (written.number != 0)
        return refused(written.value);
    show("was", number_at(image, position));
    show("is ", written.value);
    put_number(image, position, written.value);
    return fwrite(image, 1, length, stdout) == length ? 0 : 2;
}
