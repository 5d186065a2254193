#include "sides.h"

#include "old_core.h"

struct outcome run_old(struct whole *w, uint16_t count)
{
    uint8_t state[PIJORREL_OLD_STATE] = { 0 };
    struct outcome o = { { 0, 0 }, 0 };
    pijorrel_old_begin(LOOP_BASE, state);
    for (; o.end.end == 0; o.calls++)
        o.end = pijorrel_old_run(w->image, w->length, LOOP_BASE, DATA_BASE, state, w->data, WHOLE_DATA, count);
    return o;
}

struct outcome run_rival(struct whole *w, uint16_t count)
{
    uint32_t windows[WINDOWS][WINDOW] = { { 0 } };
    struct rival_old_state state = { .m = { .registers = windows[0] }, .pc = LOOP_BASE, .npc = LOOP_BASE + 4 };
    struct outcome o = { { 0, 0 }, 0 };
    for (; o.end.end == 0; o.calls++)
        o.end = rival_old_run(w->image, w->length, LOOP_BASE, DATA_BASE, &state, w->data, WHOLE_DATA, count);
    return o;
}

/* With buffers for any image, as in examples/loader.c. */
struct outcome run_new(struct whole *w, uint16_t count)
{
    static uint8_t places[PIJORREL_PLACES_ENOUGH], records[PIJORREL_RECORDS_ENOUGH];
    uint8_t state[PIJORREL_NEW_STATE] = { 0 }, entry[4];
    uint32_t length = (uint32_t)w->length;
    struct outcome o = { { 0, 0 }, 0 };
    put_word(entry, LOOP_BASE);
    struct pijorrel_answer answer = pijorrel_translate(w->image, length, LOOP_BASE, entry, sizeof entry, places,
                                                       sizeof places, records, sizeof records);
    size_t table = PIJORREL_PLACE * answer.first, list = PIJORREL_RECORD * answer.second;
    if (answer.number != 0)
        return o;
    o.end = pijorrel_new_begin(places, table, LOOP_BASE, length, LOOP_BASE, state);
    for (; o.end.end == 0; o.calls++)
        o.end = pijorrel_new_run(records, list, places, table, LOOP_BASE, length, DATA_BASE, state, w->data,
                                 WHOLE_DATA, count);
    return o;
}
