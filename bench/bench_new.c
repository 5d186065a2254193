/* The new core's benchmark: the library's pijorrel_new_run beside a plain C interpreter of the same records. */
#include "bench.h"
#include "new_core.h"
#include "translations.h"

const struct core core = {
    .name = "new core", .state_length = PIJORREL_NEW_STATE, .end_at = 140, .mark = 0x4E455743
};

/* In the order of the loops. */
static const struct translation {
    const uint8_t *places, *records;
    size_t places_length, records_length;
} translations[LOOPS] = {
    { arithmetic_places, arithmetic_records, sizeof arithmetic_places, sizeof arithmetic_records },
    { memory_places, memory_records, sizeof memory_places, sizeof memory_records },
    { mixed_places, mixed_records, sizeof mixed_places, sizeof mixed_records },
    { products_places, products_records, sizeof products_places, sizeof products_records },
    { calls_places, calls_records, sizeof calls_places, sizeof calls_records }
};

struct pijorrel_end library_run(const struct program *p, uint8_t *state, uint8_t *data, size_t data_length,
                                uint16_t count)
{
    return pijorrel_new_run(p->records, p->records_length, p->places, p->places_length, p->base,
                            (uint32_t)p->image_length, p->data_base, state, data, data_length, count);
}

/* The rival's state is made of the bytes and they of it at each call, as the library does inside. */
struct pijorrel_end rival_run(const struct program *p, uint8_t *state, uint8_t *data, size_t data_length,
                              uint16_t count)
{
    uint32_t windows[WINDOWS][WINDOW];
    struct rival_new_state s = {
        .m = machine_from(state, end_in(state), windows),
        .record = word_at(state + 132),
        .held = word_at(state + 136)
    };
    rival_new_run(p->records, p->records_length, p->places, p->places_length, p->base,
                  (uint32_t)p->image_length, p->data_base, &s, data, data_length, count);
    machine_to(&s.m, windows, state, state + core.end_at);
    put_word(state + 132, s.record);
    put_word(state + 136, s.held);
    return s.m.end;
}

struct program program_of(int number, const struct loop *loop)
{
    const struct translation *t = &translations[number];
    return (struct program){
        .records = t->records,
        .records_length = t->records_length,
        .places = t->places,
        .places_length = t->places_length,
        .image_length = loop->length,
        .base = LOOP_BASE,
        .data_base = DATA_BASE
    };
}

void begin(const struct program *p, uint8_t *state)
{
    pijorrel_new_begin(p->places, p->places_length, p->base, (uint32_t)p->image_length, p->base, state);
}

void take_numbers(struct reader *reader, struct program *p)
{
    p->places_length = take_number(reader);
    p->records_length = take_number(reader);
    p->base = take_number(reader);
    p->image_length = take_number(reader);
    p->data_base = take_number(reader);
}

void take_areas(struct reader *reader, struct program *p)
{
    p->places = take_area(reader, p->places_length);
    p->records = take_area(reader, p->records_length);
}
