#include "entries.h"

#include <string.h>

#include "shared.h"

enum { PC = 33, ANNUL = 35, OLD_END = 36, OLD_Y = 38, RECORD_NUMBER = 33, HELD = 34, NEW_END = 35, NEW_Y = 37 };

/* Y, nesting and windows of the state, as an entry shows them. */
static void show_windows(struct walk *walk, size_t y)
{
    memcpy(walk->windows, walk->state + 4 * y, Y_AND_WINDOWS);
}

static void put_windows(struct walk *walk, size_t y)
{
    memcpy(walk->state + 4 * y, walk->windows, Y_AND_WINDOWS);
}

bool has_plain_place(const struct program *program, uint32_t address)
{
    for (size_t k = 0; k < program->place_count; k++)
        if (number_at(program->places, 4 * k) == address && number_at(program->places, 4 * k + 2) == 0)
            return true;
    return false;
}

/* The place whose group begins with a record; false if none does. In a translation first records rise. */
static bool group_of(const struct program *program, uint32_t record, uint32_t *address)
{
    size_t low = 0, high = program->place_count;
    while (low < high) {
        size_t middle = low + (high - low) / 2;
        if (number_at(program->places, 4 * middle + 3) < record)
            low = middle + 1;
        else
            high = middle;
    }
    if (low == program->place_count || number_at(program->places, 4 * low + 3) != record)
        return false;
    *address = number_at(program->places, 4 * low);
    return true;
}

static bool close_if_ended(struct walk *walk, size_t end)
{
    walk->end = number_at(walk->state, end);
    walk->number = number_at(walk->state, end + 1);
    return walk->closed = walk->end != 0;
}

/* True at an entry or the close: the run has ended, or annul is clear. */
static bool found_old(struct walk *walk)
{
    walk->address = number_at(walk->state, PC);
    show_windows(walk, OLD_Y);
    return close_if_ended(walk, OLD_END) || number_at(walk->state, ANNUL) == 0;
}

/* True at an entry or the close: the run has ended, or a group's first record is at hand. */
static bool found_new(struct walk *walk)
{
    uint32_t record = number_at(walk->state, RECORD_NUMBER);
    return close_if_ended(walk, NEW_END)
        || (record < walk->program->record_count && group_of(walk->program, record, &walk->address));
}

static bool at_kind_6(const struct walk *walk)
{
    uint32_t record = number_at(walk->state, RECORD_NUMBER);
    return record < walk->program->record_count && number_at(walk->program->records, (size_t)3 * record) == 6;
}

/* A place is sought and there is none: the address has an entry before the end is the close. */
static bool landed_at(struct walk *walk, uint32_t address)
{
    uint32_t end = number_at(walk->state, NEW_END);
    walk->landed = end == 2 || end == 6;
    if (walk->landed)
        walk->address = address;
    return walk->landed;
}

static bool step_old(struct walk *walk)
{
    const struct program *p = walk->program;
    pijorrel_old_run(p->image, p->image_length, p->base, walk->data_base, walk->state, walk->data, walk->data_length,
                     1);
    walk->steps++;
    return found_old(walk);
}

static bool step_new(struct walk *walk)
{
    const struct program *p = walk->program;
    bool by_held = at_kind_6(walk);
    pijorrel_new_run(p->records, 12 * p->record_count, p->places, 16 * p->place_count, p->base,
                     (uint32_t)p->image_length, walk->data_base, walk->state, walk->data, walk->data_length, 1);
    show_windows(walk, NEW_Y);
    walk->steps++;
    return (by_held && landed_at(walk, number_at(walk->state, HELD))) || found_new(walk);
}

static void open_walk(struct walk *walk, bool on_new_core)
{
    walk->on_new_core = on_new_core;
    walk->closed = walk->astray = walk->landed = false;
    walk->steps = 0;
    walk->end = walk->number = 0;
}

void begin_old(struct walk *walk, uint32_t address)
{
    open_walk(walk, false);
    put_windows(walk, OLD_Y);
    pijorrel_old_begin(address, walk->state);
    found_old(walk);
}

void begin_new(struct walk *walk, uint32_t address)
{
    const struct program *p = walk->program;
    open_walk(walk, true);
    put_windows(walk, NEW_Y);
    pijorrel_new_begin(p->places, 16 * p->place_count, p->base, (uint32_t)p->image_length, address, walk->state);
    show_windows(walk, NEW_Y);
    if (!landed_at(walk, address))
        found_new(walk);
}

void next_entry(struct walk *walk)
{
    walk->steps = 0;
    if (walk->landed) {
        close_if_ended(walk, NEW_END);
        return;
    }
    while (walk->steps < MOST_STEPS)
        if (walk->on_new_core ? step_new(walk) : step_old(walk))
            return;
    walk->closed = walk->astray = true;
}
