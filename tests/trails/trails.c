#include "trails.h"

#include <string.h>

#include "../../bench/numbers.h"

enum { FLAGS = 32, NESTING = 1, RING = 2, DEEPEST = 6 }; /* the last three: behind Y */

static void add_entry(struct trail *trail, const struct walk *walk)
{
    struct entry *entry = &trail->entries[trail->count++];
    entry->address = walk->address;
    memcpy(entry->machine, walk->state, REGISTERS_AND_FLAGS);
    memcpy(entry->windows, walk->windows, Y_AND_WINDOWS);
    memcpy(entry->data, walk->data, DATA_ROOM);
    trail->landed = walk->landed;
}

/* The entries of a run that has begun: up to its close, or closed with 0 where one past the cut would come. */
static void read_trail(struct walk *walk, int cut, struct trail *trail)
{
    trail->count = 0;
    trail->landed = false;
    for (; !walk->closed && trail->count < cut; next_entry(walk))
        add_entry(trail, walk);
    trail->striding = !walk->astray;
    trail->end = walk->end;
    trail->number = walk->number;
}

void trail_of(begin_function *begin, const struct program *program, const struct start *start, int cut,
              struct trail *trail)
{
    uint8_t data[DATA_ROOM];
    struct walk walk = { .program = program, .data_base = start->data_base, .data = data,
                         .data_length = start->data_length };
    memcpy(walk.state, start->machine, REGISTERS_AND_FLAGS);
    memcpy(walk.windows, start->windows, Y_AND_WINDOWS);
    memcpy(data, start->data, DATA_ROOM);
    begin(&walk, start->address);
    read_trail(&walk, cut, trail);
}

static bool same_entry(const struct entry *one, const struct entry *other)
{
    return one->address == other->address && memcmp(one->machine, other->machine, REGISTERS_AND_FLAGS) == 0
        && memcmp(one->windows, other->windows, Y_AND_WINDOWS) == 0
        && memcmp(one->data, other->data, DATA_ROOM) == 0;
}

static bool same_entries(const struct trail *one, const struct trail *other, int count)
{
    for (int k = 0; k < count; k++)
        if (!same_entry(&one->entries[k], &other->entries[k]))
            return false;
    return true;
}

/* The nesting as it counts, and the current window's ins, locals and outs, which come one after the other, as the
 * registers have them. */
static void lay_over(struct entry *entry)
{
    uint32_t nesting = word_at(entry->windows + 4 * NESTING);
    uint32_t window = nesting < DEEPEST ? nesting : DEEPEST;
    uint8_t *ins = entry->windows + 4 * (RING + 16 * window);
    put_word(entry->windows + 4 * NESTING, window);
    memcpy(ins, entry->machine + 4 * 24, 32);
    memcpy(ins + 32, entry->machine + 4 * 16, 32);
    memcpy(ins + 64, entry->machine + 4 * 8, 32);
}

/* The start as an entry shows it: register 0 is 0, of the flags there are four, and the registers stand in their
 * window. */
static bool begins_at(const struct trail *trail, const struct start *start)
{
    struct entry first;
    first.address = start->address;
    memcpy(first.machine, start->machine, REGISTERS_AND_FLAGS);
    memcpy(first.windows, start->windows, Y_AND_WINDOWS);
    memcpy(first.data, start->data, DATA_ROOM);
    put_word(first.machine, 0);
    put_word(first.machine + 4 * FLAGS, word_at(start->machine + 4 * FLAGS) % 16);
    lay_over(&first);
    return trail->count > 0 && same_entry(&trail->entries[0], &first);
}

/* End 6: only where the last entry is a landing at an address in the image without a plain place. */
static bool six_in_its_case(const struct program *program, const struct trail *trail)
{
    uint32_t address = trail->entries[trail->count - 1].address;
    uint64_t distance = (uint32_t)(address - program->base);
    return trail->landed && trail->number == address && distance + 4 <= program->image_length
        && !has_plain_place(program, address);
}

const char *difference(const struct program *program, const struct start *start, const struct trail *old,
                       const struct trail *new)
{
    if (!begins_at(old, start) || !begins_at(new, start))
        return "a first entry is not the start";
    if (!old->striding || !new->striding)
        return "other than one or two steps from an entry to the next";
    if (new->end == 6) {
        if (!six_in_its_case(program, new))
            return "end 6 outside its case";
        return old->count >= new->count && same_entries(old, new, new->count) ? NULL : "entries up to end 6 differ";
    }
    if (old->count != new->count || !same_entries(old, new, new->count))
        return "entries differ";
    return old->end == new->end && old->number == new->number ? NULL : "the closes differ";
}
