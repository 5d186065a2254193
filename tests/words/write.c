/* Writes each instruction on standard input, 24 bytes, with the library: on standard output its answer, number and
 * value, four bytes each, big-endian. */
#include <stdio.h>

#include "pijorrel.h"

static void put_number(uint32_t number)
{
    for (int shift = 24; shift >= 0; shift -= 8)
        putchar(number >> shift & 255);
}

int main(void)
{
    uint8_t instruction[PIJORREL_INSTRUCTION];
    while (fread(instruction, 1, sizeof instruction, stdin) == sizeof instruction) {
        struct pijorrel_written answer = pijorrel_write(instruction);
        put_number(answer.number);
        put_number(answer.value);
    }
    return 0;
}
