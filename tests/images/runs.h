/* One stored image on both cores, beside each other and beside QEMU's record. */
#ifndef RUNS_H
#define RUNS_H

#include "stored.h"

/* What was seen of all images so far. */
struct counts {
    unsigned long places, records, entries, old_steps, new_steps;
    unsigned long products, reads, writes; /* entries at words that multiply, read Y, and write it alone */
    unsigned long saves, restores;         /* entries at these, done or not */
};

/* What differs, or NULL. If asked, one bit of a record in the middle of the run is spoiled before it. */
const char *check_image(const struct stored *image, bool spoil, struct counts *counts);

/* The image with bit 22 set in each word behind the delay slot of a call that returns a record, so that it is no unimp
 * any more; nothing reads it. The new core must come as far as the first return past one, and end there with 6. What
 * differs, or NULL; how many words were changed is added up. */
const char *check_without_unimps(const struct stored *image, unsigned long *changed);

#endif
