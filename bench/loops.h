/* Loops of SPARC V8 words to measure the cores on; none of them ends. */
#ifndef LOOPS_H
#define LOOPS_H

#include <stddef.h>
#include <stdint.h>

enum {
    LOOPS = 5,
    LOOP_WORDS = 32,
    LOOP_BASE = 0x1000, /* of the image; each loop is begun there */
    DATA_BASE = 0x40000000,
    DATA_LENGTH = 4096
};

struct loop {
    const char *name;
    uint8_t image[4 * LOOP_WORDS];
    size_t length;
    size_t closing; /* the position of the ba that goes back to begin another turn */
};

/* 0 arithmetic, 1 memory, 2 mixed, 3 products, 4 calls; and 5, LOOPS itself, an empty one that no core is measured
 * on */
struct loop loop_at(int number);

/* What every run finds as its data. */
void first_data(uint8_t data[DATA_LENGTH]);

#endif
