#include "samples.h"

#include <stdio.h>

#include "document.h"
#include "numbers.h"
#include "words.h"

enum { SIZES = 6 };

static const size_t sizes[SIZES] = { 16, 64, 256, 1024, 2048, 4096 };

/* The same numbers in every run, of 16 bits. */
static uint32_t drawn(uint32_t *state)
{
    *state = *state * 1664525u + 1013904223u;
    return *state >> 16;
}

static uint32_t always_trap(void)
{
    return with_constant(FORMAT_ARITHMETIC, OP3_TICC, COND_ALWAYS, 0, 0);
}

/* Arithmetic, memory and sethi, none more likely than another. */
static uint32_t straight_word(uint32_t *state)
{
    uint32_t rd = drawn(state) % 32, rs1 = drawn(state) % 32, rs2 = drawn(state) % 32;
    switch (drawn(state) % 8) {
    case 0: return compute(OP3_ADD, rd, rs1, rs2);
    case 1: return compute_constant(OP3_SUB | OP3_CC, rd, rs1, 7);
    case 2: return compute_constant(OP3_SLL, rd, rs1, 3);
    case 3: return compute(OP3_XOR, rd, rs1, rs2);
    case 4: return access_constant(OP3_LD, rd, rs1, 8);
    case 5: return access(OP3_ST, rd, rs1, rs2);
    case 6: return access_constant(OP3_LDUB, rd, rs1, 1);
    default: return sethi(rd, rs1 << 10);
    }
}

/* Any condition but always and never. */
static uint32_t some_condition(uint32_t *state)
{
    return drawn(state) % 2 * 8 + 1 + drawn(state) % 7;
}

/* Straight code up to a trap: a place for each word. */
static void make_straight(struct sample *s)
{
    uint32_t state = 1;
    for (size_t i = 0; i < SAMPLE_WORDS; i++)
        put_word(s->images + 4 * i, i % s->words + 1 < s->words ? straight_word(&state) : always_trap());
    s->places_length = s->words * PLACE_BYTES;
    s->records_length = (2 * s->words - 1) * RECORD_BYTES;
}

/* Conditional branches, each four words ahead, up to three traps. Each adds a slot place and a plain one; the slot
 * place's own followers are plain, since the branch in the slot goes as far. */
static void make_branches(struct sample *s)
{
    uint32_t state = 2;
    size_t branches = s->words - 3, places = s->words + branches;
    for (size_t i = 0; i < SAMPLE_WORDS; i++)
        put_word(s->images + 4 * i, i % s->words < branches ? branch(some_condition(&state), false, 4) : always_trap());
    s->places_length = places * PLACE_BYTES;
    s->records_length = (2 * places - 4) * RECORD_BYTES; /* a trap has one record, and stands in four places */
}

/* Calls of what stands four words ahead, up to a call out of the image: each with a slot, an unimp behind it and a word
 * that goes on to the next call. A place for each word; that outside has one record, and so has each unimp. */
static void make_calls(struct sample *s)
{
    uint32_t state = 4;
    size_t places = s->words + 1;
    for (size_t i = 0; i < SAMPLE_WORDS; i++) {
        uint32_t word = straight_word(&state);
        put_word(s->images + 4 * i, i % 4 == 0 ? call(4) : i % 4 == 2 ? drawn(&state) % 4096 : word);
    }
    s->places_length = places * PLACE_BYTES;
    s->records_length = (2 * places - s->words / 4 - 1) * RECORD_BYTES;
}

/* One image: conditional branches to anywhere in it, with the annul bit or without: the slot places never end. */
static void make_refused(struct sample *s)
{
    uint32_t state = 3;
    for (size_t i = 0; i < s->words; i++) {
        int ahead = (int)(drawn(&state) % s->words) - (int)i;
        put_word(s->images + 4 * i, branch(some_condition(&state), drawn(&state) % 2, ahead));
    }
    s->number = 5;
    s->places_length = PLACES_ROOM; /* room for the 8,193rd, so that the limit refuses it and not the table */
    s->records_length = RECORDS_ROOM;
}

void make_sample(struct sample *sample, int number)
{
    static const char *const names[] = { "straight", "branches", "calls", "refused" };
    int kind = number / SIZES;
    *sample = (struct sample){ .words = kind < 3 ? sizes[number % SIZES] : SAMPLE_WORDS };
    snprintf(sample->name, sizeof sample->name, "%s_%zu", names[kind], sample->words);
    switch (kind) {
    case 0: make_straight(sample); break;
    case 1: make_branches(sample); break;
    case 2: make_calls(sample); break;
    default: make_refused(sample);
    }
}
