/* Images to measure the translator on, made by rule, with base and only entry 0. A sample is as many images of one size
 * as make 4,096 words, each other than the rest, so that no size is easier to foresee for the processor. */
#ifndef SAMPLES_H
#define SAMPLES_H

#include <stddef.h>
#include <stdint.h>

enum {
    SAMPLES = 19,
    SAMPLE_WORDS = 4096, /* of all its images */
    PLACES_ROOM = 16 * 8193,
    RECORDS_ROOM = 12 * 16384
};

struct sample {
    char name[20]; /* the kind and the words, as in straight_16 */
    size_t words;  /* of an image */
    uint8_t images[4 * SAMPLE_WORDS];
    uint32_t number;                       /* of each answer: 0, or 5 */
    size_t places_length, records_length; /* lent to each; both are filled, if the answer is 0 */
};

/* Six sizes of straight code, the same six of conditional branches and of calls that return records, and branches
 * refused at the 8,193rd place. */
void make_sample(struct sample *sample, int number);

#endif
