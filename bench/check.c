/* Holds both sides of a core to the cases of a vectors file. */
#include "bench.h"

#include <stdlib.h>
#include <string.h>

#include "main.h"
#include "numbers.h"

struct vector {
    struct program program;
    uint32_t data_length, count;
    const uint8_t *before, *data, *after, *data_after;
};

static bool take_vector(struct reader *reader, struct vector *v)
{
    *v = (struct vector){ 0 };
    if (take_number(reader) != core.mark)
        return false;
    take_numbers(reader, &v->program);
    v->data_length = take_number(reader);
    v->count = take_number(reader);
    v->before = take_area(reader, core.state_length);
    take_areas(reader, &v->program);
    v->data = take_area(reader, v->data_length);
    v->after = take_area(reader, core.state_length);
    v->data_after = take_area(reader, v->data_length);
    return !reader->short_of;
}

/* A side leaves and answers what the case says; data is room for the case's. */
static bool agrees(run_function *run, const struct vector *v, uint8_t *data)
{
    const uint8_t *known = end_in(v->after);
    uint8_t state[STATE_LIMIT];
    struct pijorrel_end end;
    memcpy(state, v->before, core.state_length);
    memcpy(data, v->data, v->data_length);
    end = run(&v->program, state, data, v->data_length, (uint16_t)v->count);
    return memcmp(state, v->after, core.state_length) == 0 && memcmp(data, v->data_after, v->data_length) == 0
        && end.end == word_at(known) && end.number == word_at(known + 4);
}

static bool check_case(struct reader *reader, struct agreement *agreement)
{
    struct vector v;
    uint8_t *data;
    if (!take_vector(reader, &v))
        return false;
    data = malloc((size_t)v.data_length + 1);
    if (!data)
        return false;
    agreement->library += agrees(library_run, &v, data);
    agreement->rival += agrees(rival_run, &v, data);
    free(data);
    return true;
}

int check(const char *path)
{
    return check_file(path, core.name, check_case);
}
