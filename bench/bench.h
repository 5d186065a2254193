/* One face for either core, by which bench.c measures it and check.c holds it to vectors: bench_old.c and bench_new.c
 * each have all that is declared here, and one of them is linked. */
#ifndef BENCH_H
#define BENCH_H

#include <stdbool.h>

#include "loops.h"
#include "pijorrel.h"
#include "vectors.h"

/* What a core is given beside its state and data: the old core the image, the new core places, records and the
 * image's length. */
struct program {
    const uint8_t *image, *places, *records;
    size_t image_length, places_length, records_length;
    uint32_t base, data_base;
};

typedef struct pijorrel_end run_function(const struct program *program, uint8_t *state,
                                         uint8_t *data, size_t data_length, uint16_t count);

/* The longer of both cores' states. */
enum { STATE_LIMIT = PIJORREL_OLD_STATE };

extern const struct core {
    const char *name;
    size_t state_length, end_at; /* the end stands there, what belongs to it and Y behind it, then the windows */
    uint32_t mark;               /* of a case in a vectors file */
} core;

/* The end's number in a state, and what belongs to it right after. */
static inline const uint8_t *end_in(const uint8_t *state)
{
    return state + core.end_at;
}

run_function library_run, rival_run;

/* A loop (by number) as a program, and the state that begins it. */
struct program program_of(int number, const struct loop *loop);
void begin(const struct program *program, uint8_t *state);

/* Of a case in a vectors file: the numbers up to the data base, the areas before the data. */
void take_numbers(struct reader *reader, struct program *program);
void take_areas(struct reader *reader, struct program *program);

#endif
