/* The old core's benchmark: the library's pijorrel_old_run beside a plain C interpreter of the same words. */
#include "bench.h"
#include "old_core.h"

const struct core core = {
    .name = "old core", .state_length = PIJORREL_OLD_STATE, .end_at = 144, .mark = 0x4F4C4443
};

struct pijorrel_end library_run(const struct program *p, uint8_t *state, uint8_t *data, size_t data_length,
                                uint16_t count)
{
    return pijorrel_old_run(p->image, p->image_length, p->base, p->data_base, state, data, data_length, count);
}

/* The rival's state is made of the bytes and they of it at each call, as the library does inside. */
struct pijorrel_end rival_run(const struct program *p, uint8_t *state, uint8_t *data, size_t data_length,
                              uint16_t count)
{
    uint32_t windows[WINDOWS][WINDOW];
    struct rival_old_state s = {
        .m = machine_from(state, end_in(state), windows),
        .pc = word_at(state + 132),
        .npc = word_at(state + 136),
        .annul = word_at(state + 140) != 0
    };
    rival_old_run(p->image, p->image_length, p->base, p->data_base, &s, data, data_length, count);
    machine_to(&s.m, windows, state, state + core.end_at);
    put_word(state + 132, s.pc);
    put_word(state + 136, s.npc);
    put_word(state + 140, s.annul);
    return s.m.end;
}

struct program program_of(int number, const struct loop *loop)
{
    (void)number;
    return (struct program){
        .image = loop->image, .image_length = loop->length, .base = LOOP_BASE, .data_base = DATA_BASE
    };
}

void begin(const struct program *p, uint8_t *state)
{
    pijorrel_old_begin(p->base, state);
}

void take_numbers(struct reader *reader, struct program *p)
{
    p->image_length = take_number(reader);
    p->base = take_number(reader);
    p->data_base = take_number(reader);
}

void take_areas(struct reader *reader, struct program *p)
{
    p->image = take_area(reader, p->image_length);
}
