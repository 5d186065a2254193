/* The counter of a car park's bays: events change what stands where, and a sign byte says how full each level is. */
#include "image.h"

enum { LEVELS = 4, BAYS = 12, EVENTS = 120 };
enum { ARRIVES, LEAVES, CLOSES, OPENS };
enum { SIGN_FREE = 'F', SIGN_FEW = 'W', SIGN_FULL = 'X', SIGN_SHUT = '-' };

struct level {
    unsigned short taken; /* one bit for each bay */
    signed char free;
    byte shut;
};

word results[RESULTS];
static struct level levels[LEVELS];
static volatile byte signs[LEVELS];
static short refused, unknown;
static word shown;

static byte sign_of(const struct level *level)
{
    if (level->shut)
        return SIGN_SHUT;
    if (level->free <= 0)
        return SIGN_FULL;
    return level->free < 5 ? SIGN_FEW : SIGN_FREE;
}

static void arrive(struct level *level, word bay)
{
    if (level->shut || level->taken >> bay & 1) {
        refused++;
        return;
    }
    level->taken |= (unsigned short)(1u << bay);
    level->free--;
}

static void leave(struct level *level, word bay)
{
    if (!(level->taken >> bay & 1)) {
        unknown--;
        return;
    }
    level->taken &= (unsigned short)~(1u << bay);
    level->free++;
}

static void happen(word number, word kind, word bay)
{
    struct level *level = &levels[number];
    byte sign;
    switch (kind) {
    case ARRIVES: arrive(level, bay); break;
    case LEAVES: leave(level, bay); break;
    case CLOSES: level->shut = 1; break;
    case OPENS: level->shut = 0; break;
    }
    sign = sign_of(level);
    if (signs[number] != sign) {
        signs[number] = sign;
        shown = (shown << 7 | shown >> 25) + sign;
    }
}

/* Arrivals are five in eight, departures two; one in eight shuts or opens a level. */
static void draw_event(word *state)
{
    word number = drawn(state), kind = number >> 3 & 7, bay = number >> 8 & 15;
    if (bay >= BAYS)
        bay -= BAYS;
    happen(number & 3, kind < 5 ? ARRIVES : kind < 7 ? LEAVES : number >> 12 & 1 ? OPENS : CLOSES, bay);
}

int main(void)
{
    word state = 20461115;
    for (int i = 0; i < LEVELS; i++) {
        levels[i].free = BAYS;
        signs[i] = SIGN_FREE;
    }
    for (int i = 0; i < EVENTS; i++)
        draw_event(&state);
    for (int i = 0; i < LEVELS; i++) {
        results[i] = levels[i].taken;
        results[4 + i] = (word)levels[i].free;
        results[8 + i] = signs[i];
    }
    results[12] = (word)refused;
    results[13] = (word)unknown;
    results[14] = shown;
    return 0;
}
