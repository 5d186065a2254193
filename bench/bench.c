/* Measures the library's side of a core against the rival's, on five loops. */
#include "bench.h"

#include <stdio.h>
#include <stdlib.h>
#include <string.h>

#include "main.h"
#include "numbers.h"
#include "timing.h"

enum {
    ROUNDS = 50, /* short ones, so that some fall into quiet moments of the machine */
    STEPS_A_ROUND = 1000000,
    COUNT = 65535 /* steps a call, the most that a call does */
};

struct side {
    uint8_t state[STATE_LIMIT];
    uint8_t data[DATA_LENGTH];
    double best; /* seconds of the fastest round */
};

static void begin_side(const struct program *program, struct side *side)
{
    memset(side->state, 0, sizeof side->state);
    begin(program, side->state);
    first_data(side->data);
    side->best = 1e9;
}

static void round_of(run_function *run, const struct program *program, struct side *side)
{
    double start = seconds();
    for (uint32_t left = STEPS_A_ROUND; left > 0;) {
        uint16_t count = left < COUNT ? (uint16_t)left : COUNT;
        run(program, side->state, side->data, DATA_LENGTH, count);
        left -= count;
    }
    keep_best(&side->best, start);
}

/* Both sides are still going, with equal states and data. */
static bool equal(const struct side *library, const struct side *rival)
{
    return word_at(end_in(rival->state)) == 0
        && memcmp(rival->state, library->state, core.state_length) == 0
        && memcmp(rival->data, library->data, DATA_LENGTH) == 0;
}

static bool measure(int number, int rounds)
{
    static struct side library, rival;
    struct loop loop = loop_at(number);
    struct program program = program_of(number, &loop);
    begin_side(&program, &library);
    begin_side(&program, &rival);
    for (int i = 0; i < rounds; i++) {
        round_of(library_run, &program, &library);
        round_of(rival_run, &program, &rival);
    }
    if (!equal(&library, &rival)) {
        printf("%-10s  the two sides differ, or the loop ended\n", loop.name);
        return false;
    }
    print_row(loop.name, library.best * 1e9 / STEPS_A_ROUND, rival.best * 1e9 / STEPS_A_ROUND);
    return true;
}

int benchmark(void)
{
    bool good = true;
    printf("%s, nanoseconds a step: the best of %d rounds of %d steps on each side, in turn\n",
           core.name, ROUNDS, STEPS_A_ROUND);
    print_heading("loop");
    for (int i = 0; i < LOOPS; i++)
        good = measure(i, ROUNDS) && good;
    return good ? EXIT_SUCCESS : EXIT_FAILURE;
}

int one_round(const char *name)
{
    for (int i = 0; i < LOOPS; i++)
        if (strcmp(loop_at(i).name, name) == 0)
            return measure(i, 1) ? EXIT_SUCCESS : EXIT_FAILURE;
    fprintf(stderr, "no loop %s\n", name);
    return 2;
}
