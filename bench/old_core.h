/* The old core's rival: document 01's old core as a plain interpreter in C, to measure the library against. */
#ifndef RIVAL_OLD_CORE_H
#define RIVAL_OLD_CORE_H

#include <stdbool.h>

#include "machine.h"

struct rival_old_state {
    struct machine m;
    uint32_t pc;
    uint32_t npc;
    bool annul;
};

/* Passes count words, or fewer where the run ends, as pijorrel_old_run does. */
struct pijorrel_end rival_old_run(const uint8_t *image, size_t image_length, uint32_t base,
                                  uint32_t data_base, struct rival_old_state *state,
                                  uint8_t *data, size_t data_length, uint16_t count);

#endif
