/* Both cores run from entry to entry, by calls of count 1, over an accepted image and its translation: an entry stands
 * before each word that the old core executes, and before each group's first record on the new one. */
#ifndef ENTRIES_H
#define ENTRIES_H

#include <stdbool.h>

#include "pijorrel.h"

enum {
    REGISTERS_AND_FLAGS = 132, /* the first bytes of both states */
    Y_AND_WINDOWS = 520,       /* the last ones: Y, the nesting and the windows */
    MOST_STEPS = 2             /* from an entry to the next, or to the end */
};

/* An accepted image and its translation, just the places and records counted. */
struct program {
    const uint8_t *image, *places, *records;
    size_t image_length, place_count, record_count;
    uint32_t base;
};

/* One core's run. The caller sets the first five and the registers and flags in the state, then begins. After that
 * the run is at an entry (its address, Y and windows here, registers, flags and data where they are) or closed. */
struct walk {
    const struct program *program;
    uint32_t data_base;
    uint8_t *data;
    size_t data_length;
    uint8_t windows[Y_AND_WINDOWS];    /* in the state too, where each core has its own place for them */
    uint8_t state[PIJORREL_OLD_STATE]; /* of either core */
    bool on_new_core;
    bool closed;
    bool astray;          /* closed, since more steps than two met neither entry nor end */
    bool landed;          /* this entry is that of an address without a plain place, and the last one */
    int steps;            /* since the entry before */
    uint32_t address;     /* the entry's */
    uint32_t end, number; /* once closed */
};

/* Whether the table has a plain place of an address. */
bool has_plain_place(const struct program *program, uint32_t address);

/* To the first entry. */
void begin_old(struct walk *walk, uint32_t address);
void begin_new(struct walk *walk, uint32_t address);

/* From an entry to the next, or to the close. */
void next_entry(struct walk *walk);

#endif
