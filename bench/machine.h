/* What the states of both rivals begin with, in the machine's own numbers. */
#ifndef RIVAL_MACHINE_H
#define RIVAL_MACHINE_H

#include "numbers.h"
#include "pijorrel.h"

/* Each window has 32 numbers, the globals too, so that no access pays for windows. What two of them share is right in
 * the one that was current last. */
enum { WINDOWS = 8, WINDOW = 32, OUTS = 8, LOCALS = 16, INS = 24, MOST_NESTING = 6 };

/* Register 0 is 0 at every call, and flags are 8N + 4Z + 2V + C. */
struct machine {
    uint32_t *registers; /* the current window's, in an array of all windows that the caller keeps */
    uint32_t flags;
    uint32_t y;
    uint32_t nesting;
    struct pijorrel_end end;
};

/* A window's 16 numbers in a state, ins and locals; the window before has the ins as outs. */
static inline void window_from(const uint8_t *block, uint32_t *window, uint32_t *before)
{
    for (int i = 0; i < 8; i++) {
        before[OUTS + i] = window[INS + i] = word_at(block + 4 * i);
        window[LOCALS + i] = word_at(block + 32 + 4 * i);
    }
}

/* The ins come from what was current last: of windows in use their own, of others the outs before. */
static inline void window_to(const uint32_t *window, const uint32_t *ins, uint8_t *block)
{
    for (int i = 0; i < 8; i++) {
        put_word(block + 4 * i, ins[i]);
        put_word(block + 32 + 4 * i, window[LOCALS + i]);
    }
}

/* From and to the bytes of the library's states: registers and flags stand first in both; at end the end, the number
 * beside it, Y, the nesting and the windows, over which the registers count. */
static inline struct machine machine_from(const uint8_t *state, const uint8_t *end, uint32_t windows[WINDOWS][WINDOW])
{
    struct machine m = {
        .flags = word_at(state + 128) & 15, .y = word_at(end + 8), .nesting = word_at(end + 12),
        .end = { word_at(end), word_at(end + 4) }
    };
    if (m.nesting > MOST_NESTING)
        m.nesting = MOST_NESTING;
    if (m.end.end < 1 || m.end.end > 9)
        m.end = (struct pijorrel_end){ 0, 0 };
    for (int i = 0; i < WINDOWS; i++)
        window_from(end + 16 + 64 * i, windows[i], windows[(i + 7) % WINDOWS]);
    m.registers = windows[m.nesting];
    m.registers[0] = 0;
    for (int i = 1; i < 32; i++)
        m.registers[i] = word_at(state + 4 * i);
    return m;
}

static inline void machine_to(const struct machine *m, uint32_t windows[WINDOWS][WINDOW], uint8_t *state, uint8_t *end)
{
    for (int i = 0; i < 32; i++)
        put_word(state + 4 * i, m->registers[i]);
    put_word(state + 128, m->flags);
    put_word(end, m->end.end);
    put_word(end + 4, m->end.number);
    put_word(end + 8, m->y);
    put_word(end + 12, m->nesting);
    for (uint32_t i = 0; i < WINDOWS; i++)
        window_to(windows[i], i <= m->nesting ? windows[i] + INS : windows[i - 1] + OUTS, end + 16 + 64 * i);
}

#endif
