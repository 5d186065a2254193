/* The new core's rival: document 01's new core as a plain interpreter in C, to measure the library against. */
#ifndef RIVAL_NEW_CORE_H
#define RIVAL_NEW_CORE_H

#include "machine.h"

struct rival_new_state {
    struct machine m;
    uint32_t record;
    uint32_t held;
};

/* Does count records, or fewer where the run ends, as pijorrel_new_run does. */
struct pijorrel_end rival_new_run(const uint8_t *records, size_t records_length, const uint8_t *places,
                                  size_t places_length, uint32_t base, uint32_t image_length, uint32_t data_base,
                                  struct rival_new_state *state, uint8_t *data, size_t data_length,
                                  uint16_t count);

#endif
