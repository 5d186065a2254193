/* The C interface as a loader meets it: bad input, edges of the areas, bytes around them. C and C++. */
#include "pijorrel.h"

#include <stddef.h>
#include <stdio.h>
#include <string.h>

enum { GUARD = 16, WINDOWS = 8 };
enum { FLAGS = 32, PC = 33, NPC = 34, ANNUL = 35, END = 36, NUMBER = 37, OLD_Y = 38, NEW_Y = 37 };

static int checks, failures;

#define CHECK(fact) check((fact), #fact, __LINE__)

static void check(int fact, const char *text, int line)
{
    checks++;
    if (!fact) {
        failures++;
        printf("line %d does not hold: %s\n", line, text);
    }
}

static uint32_t number_at(const uint8_t *bytes, int k)
{
    const uint8_t *at = bytes + 4 * k;
    return (uint32_t)at[0] << 24 | (uint32_t)at[1] << 16 | (uint32_t)at[2] << 8 | at[3];
}

static void put_number(uint8_t *bytes, int k, uint32_t v)
{
    for (int i = 0; i < 4; i++)
        bytes[4 * k + i] = (uint8_t)(v >> (24 - 8 * i));
}

/* A state with guard bytes on both sides. */
struct guarded {
    uint8_t before[GUARD];
    uint8_t state[PIJORREL_OLD_STATE];
    uint8_t after[GUARD];
};

static struct guarded fresh(uint32_t pc)
{
    struct guarded g;
    memset(&g, 0xA5, sizeof g);
    memset(g.state, 0, sizeof g.state);
    pijorrel_old_begin(pc, g.state);
    return g;
}

static int guards_stand(const struct guarded *g)
{
    for (int i = 0; i < GUARD; i++)
        if (g->before[i] != 0xA5 || g->after[i] != 0xA5)
            return 0;
    return 1;
}

/* 01's case P2: a branch in the delay slot of a branch. */
static void couple_of_branches(void)
{
    static const uint32_t words[] = { 0x10800004, 0x10800005, 0, 0, 0x82006001, 0, 0x91D02000 };
    uint8_t image[28];
    struct guarded g = fresh(0);
    for (int i = 0; i < 7; i++)
        put_number(image, i, words[i]);
    struct pijorrel_end end = pijorrel_old_run(image, sizeof image, 0, 0, g.state, NULL, 0, 65535);
    CHECK(end.end == 1 && end.number == 0);
    CHECK(number_at(g.state, 1) == 1);
    CHECK(number_at(g.state, PC) == 24);
    CHECK(guards_stand(&g));
    uint8_t kept[PIJORREL_OLD_STATE];
    memcpy(kept, g.state, sizeof kept);
    end = pijorrel_old_run(image, sizeof image, 0, 0, g.state, NULL, 0, 9);
    CHECK(end.end == 1 && memcmp(kept, g.state, sizeof kept) == 0); /* an ended state stays */
}

static void bad_places(void)
{
    struct guarded g = fresh(4);
    struct pijorrel_end end = pijorrel_old_run(NULL, 0, 0, 0, g.state, NULL, 0, 1);
    CHECK(end.end == 2 && end.number == 4); /* an empty image */
    g = fresh(6);
    end = pijorrel_old_run(NULL, 0, 0, 0, g.state, NULL, 0, 1);
    CHECK(end.end == 4 && end.number == 6); /* alignment comes first */
    const uint8_t illegal[4] = { 0, 0, 0, 0 };
    g = fresh(0xFFFFFFFC);
    end = pijorrel_old_run(illegal, 4, 0xFFFFFFFC, 0, g.state, NULL, 0, 1);
    CHECK(end.end == 3 && end.number == 0xFFFFFFFC); /* an image at the top of the addresses */
    CHECK(guards_stand(&g));
}

/* Any bytes are a state; a run of no steps leaves it in normal form. */
static void any_state(void)
{
    struct guarded g = fresh(0);
    memset(g.state, 0xFF, sizeof g.state);
    struct pijorrel_end end = pijorrel_old_run(NULL, 0, 0, 0, g.state, NULL, 0, 0);
    CHECK(end.end == 0 && end.number == 0);
    CHECK(number_at(g.state, 0) == 0 && number_at(g.state, 31) == 0xFFFFFFFF);
    CHECK(number_at(g.state, FLAGS) == 15 && number_at(g.state, ANNUL) == 1);
    CHECK(number_at(g.state, END) == 0 && number_at(g.state, NUMBER) == 0);
    CHECK(number_at(g.state, OLD_Y) == 0xFFFFFFFF && number_at(g.state, OLD_Y + 1) == 6);
    put_number(g.state, END, 7);
    put_number(g.state, NUMBER, 99);
    end = pijorrel_old_run(NULL, 0, 0, 0, g.state, NULL, 0, 5);
    CHECK(end.end == 7 && end.number == 99);
    pijorrel_old_begin(0xFFFFFFFE, g.state);
    CHECK(number_at(g.state, PC) == 0xFFFFFFFE && number_at(g.state, NPC) == 2);
    CHECK(number_at(g.state, ANNUL) == 0 && number_at(g.state, END) == 0 && number_at(g.state, NUMBER) == 0);
    CHECK(number_at(g.state, 31) == 0xFFFFFFFF && number_at(g.state, FLAGS) == 15);
    CHECK(number_at(g.state, OLD_Y) == 0xFFFFFFFF);
    CHECK(guards_stand(&g));
}

/* st %g0, [%g1 + 0]; of a lent area the first 65,536 bytes are data. */
static void data_edges(void)
{
    static uint8_t area[65536 + 4 + GUARD];
    const uint8_t store[4] = { 0xC0, 0x20, 0x60, 0x00 };
    struct guarded g = fresh(0);
    memset(area, 0xA5, sizeof area);
    put_number(g.state, 1, 65532);
    struct pijorrel_end end = pijorrel_old_run(store, 4, 0, 0, g.state, area, 65540, 1);
    CHECK(end.end == 0 && area[65531] == 0xA5 && area[65532] == 0 && area[65535] == 0 && area[65536] == 0xA5);
    g = fresh(0);
    put_number(g.state, 1, 65536);
    end = pijorrel_old_run(store, 4, 0, 0, g.state, area, 65540, 1);
    CHECK(end.end == 5 && end.number == 65536 && area[65536] == 0xA5);
    g = fresh(0);
    put_number(g.state, 1, 65534);
    end = pijorrel_old_run(store, 4, 0, 0, g.state, area, 65535, 1);
    CHECK(end.end == 4 && end.number == 65534); /* neither aligned nor inside */
    g = fresh(0);
    end = pijorrel_old_run(store, 4, 0, 0, g.state, NULL, 0, 1);
    CHECK(end.end == 5 && end.number == 0);
    CHECK(guards_stand(&g));
}

/* 01's listing on the new core: its place table and records, from its entry to the trap. */
static void listing_runs(void)
{
    static const uint32_t places[] = { 0, 4, 0, 0, 4, 12, 1, 1, 12, 16, 0, 3 };
    static const uint32_t records[] = { 5, 1, 0, 1, 2181062657u, 0, 5, 3, 0, 1, 2446336000u, 0 };
    uint8_t table[48], list[48], state[PIJORREL_NEW_STATE] = { 0 };
    for (int i = 0; i < 12; i++) {
        put_number(table, i, places[i]);
        put_number(list, i, records[i]);
    }
    struct pijorrel_end end = pijorrel_new_begin(table, sizeof table, 0, 16, 0, state);
    CHECK(end.end == 0 && end.number == 0);
    end = pijorrel_new_run(list, sizeof list, table, sizeof table, 0, 16, 0, state, NULL, 0, 65535);
    CHECK(end.end == 1 && end.number == 0 && number_at(state, 1) == 1 && number_at(state, 33) == 3);
    end = pijorrel_new_begin(table, sizeof table, 0, 16, 8, state);
    CHECK(end.end == 6 && end.number == 8 && number_at(state, 33) == 0); /* inside, and no place */
    end = pijorrel_new_begin(table, sizeof table, 0, 16, 16, state);
    CHECK(end.end == 2 && end.number == 16 && number_at(state, 1) == 1); /* outside; registers stay */
    end = pijorrel_new_begin(table, 47, 0, 16, 12, state);
    CHECK(end.end == 6 && end.number == 12); /* a tail too short for a place is not counted */
    pijorrel_new_begin(table, sizeof table, 0, 16, 12, state);
    end = pijorrel_new_run(list, 47, table, sizeof table, 0, 16, 0, state, NULL, 0, 1);
    CHECK(end.end == 7 && end.number == 3); /* nor one too short for a record */
}

/* 01's listing from its image: place table and records to the byte, zeros past them, and refusals that leave zeros. */
static void translation_edges(void)
{
    static const uint32_t image[] = { 0x10800003, 0x82006001, 0, 0x91D02000 };
    static const uint32_t places[] = { 0, 4, 0, 0, 4, 12, 1, 1, 12, 16, 0, 3 };
    static const uint32_t records[] = { 5, 1, 0, 1, 2181062657u, 0, 5, 3, 0, 1, 2446336000u, 0 };
    uint8_t bytes[16], entry[4] = { 0 }, table[70], list[70], zeros[70] = { 0 };
    for (int i = 0; i < 4; i++)
        put_number(bytes, i, image[i]);
    memset(table, 0xA5, sizeof table);
    memset(list, 0xA5, sizeof list);
    struct pijorrel_answer a = pijorrel_translate(bytes, 16, 0, entry, 4, table, 65, list, 65);
    CHECK(a.number == 0 && a.first == 3 && a.second == 4);
    for (int i = 0; i < 12; i++)
        CHECK(number_at(table, i) == places[i] && number_at(list, i) == records[i]);
    CHECK(memcmp(table + 48, zeros, 17) == 0 && memcmp(list + 48, zeros, 17) == 0);
    CHECK(table[65] == 0xA5 && list[65] == 0xA5);
    a = pijorrel_translate(bytes, 16, 0, entry, 4, table, 47, list, 65);
    CHECK(a.number == 5 && a.first == 12 && a.second == 0); /* a tail too short for a place has no room */
    CHECK(memcmp(table, zeros, 47) == 0 && memcmp(list, zeros, 65) == 0 && table[65] == 0xA5);
    a = pijorrel_translate(bytes, 16, 0, entry, 4, table, 48, list, 47);
    CHECK(a.number == 6 && a.first == 4 && memcmp(table, zeros, 48) == 0 && memcmp(list, zeros, 47) == 0);
    a = pijorrel_translate(bytes, 15, 2, entry, 3, NULL, 0, NULL, 0);
    CHECK(a.number == 1 && a.first == 15); /* before the base and the entries */
    a = pijorrel_translate(bytes, 16, 2, entry, 3, NULL, 0, NULL, 0);
    CHECK(a.number == 2 && a.first == 2);
    a = pijorrel_translate(bytes, 16, 0, entry, 3, NULL, 0, NULL, 0);
    CHECK(a.number == 3 && a.first == 0);
    a = pijorrel_translate(bytes, 16, 4, entry, 4, NULL, 0, NULL, 0);
    CHECK(a.number == 3 && a.first == 1); /* entry 0 lies outside an image at 4 */
    a = pijorrel_translate(bytes, 16, 0, entry, 4, NULL, 0, NULL, 0);
    CHECK(a.number == 5 && a.first == 0);
}

/* The README's image: of the two places that follow its be, the fall-through has the smaller number. */
static void fall_through_first(void)
{
    static const uint32_t image[] = { 0x02800003, 0x82006001, 0x91D02001, 0x91D02000 };
    static const uint32_t places[] = { 0, 4, 0, 0, 4, 8, 0, 2, 4, 12, 1, 4, 8, 12, 0, 6, 12, 16, 0, 7 };
    static const uint32_t records[] = { 4, 1, 4, 5, 2, 0, 1, 0x82006001, 0, 5, 6, 0,
                                        1, 0x82006001, 0, 5, 7, 0, 1, 0x91D02001, 0, 1, 0x91D02000, 0 };
    uint8_t bytes[16], entry[4] = { 0 }, table[80], list[96], table_by_hand[80], list_by_hand[96];
    for (int i = 0; i < 4; i++)
        put_number(bytes, i, image[i]);
    for (int i = 0; i < 20; i++)
        put_number(table_by_hand, i, places[i]);
    for (int i = 0; i < 24; i++)
        put_number(list_by_hand, i, records[i]);
    struct pijorrel_answer a = pijorrel_translate(bytes, 16, 0, entry, 4, table, 80, list, 96);
    CHECK(a.number == 0 && a.first == 5 && a.second == 8);
    CHECK(memcmp(table, table_by_hand, 80) == 0 && memcmp(list, list_by_hand, 96) == 0);
    put_number(bytes, 0, 0x22800003); /* be,a: the word past the delay slot comes first, and there is no room for it */
    a = pijorrel_translate(bytes, 16, 0, entry, 4, table, 16, list, 96);
    CHECK(a.number == 5 && a.first == 8);
}

/* call 16; nop; unimp 12; ta 0; jmp %o7 + 12; nop: the function returns past the unimp, to plain 12, place 3. Where bit
 * 22 of that word is set, nothing names 12. */
static void call_returns_a_record(void)
{
    static const uint32_t image[] = { 0x40000004, 0x01000000, 12, 0x91D02000, 0x81C3E00C, 0x01000000 };
    static const uint32_t places[] = { 0, 4, 0, 0, 4, 16, 1, 2, 8, 12, 0, 4, 12, 16, 0, 5, 16, 20, 0, 6, 20, 0, 2, 8 };
    uint8_t bytes[24], entry[4] = { 0 }, table[96], list[120], by_hand[96];
    for (int i = 0; i < 6; i++)
        put_number(bytes, i, image[i]);
    for (int i = 0; i < 24; i++)
        put_number(by_hand, i, places[i]);
    for (int without = 0; without < 2; without++) {
        uint8_t state[PIJORREL_NEW_STATE] = { 0 };
        put_number(bytes, 2, without ? 12 | 1u << 22 : 12);
        struct pijorrel_answer a = pijorrel_translate(bytes, 24, 0, entry, 4, table, 96, list, 120);
        CHECK(a.number == 0 && a.first == (without ? 5 : 6) && a.second == (without ? 9 : 10));
        CHECK(without || memcmp(table, by_hand, 96) == 0);
        pijorrel_new_begin(table, 16 * a.first, 0, 24, 0, state);
        struct pijorrel_end e = pijorrel_new_run(list, 12 * a.second, table, 16 * a.first, 0, 24, 0, state, NULL, 0, 99);
        CHECK(e.end == (without ? 6 : 1) && e.number == (without ? 12 : 0));
    }
}

/* Refusal 3 names the first bad entry of a list, and a bad count is 0 whatever the entries are. */
static void first_bad_entry(void)
{
    uint8_t image[16] = { 0 }, entries[4 * 65] = { 0 };
    put_number(entries, 62, 16); /* outside the image */
    put_number(entries, 63, 2);  /* misaligned */
    struct pijorrel_answer a = pijorrel_translate(image, 16, 0, entries, 4 * 64, NULL, 0, NULL, 0);
    CHECK(a.number == 3 && a.first == 63 && a.second == 0);
    put_number(entries, 1, 0xFFFFFFFE); /* both */
    a = pijorrel_translate(image, 16, 0, entries, 4 * 64, NULL, 0, NULL, 0);
    CHECK(a.number == 3 && a.first == 2 && a.second == 0);
    a = pijorrel_translate(image, 16, 0, entries, 4 * 65, NULL, 0, NULL, 0);
    CHECK(a.number == 3 && a.first == 0 && a.second == 0);
    a = pijorrel_translate(image, 16, 0, entries, 4 + 3, NULL, 0, NULL, 0);
    CHECK(a.number == 5 && a.first == 0); /* a tail is no entry: the list is good */
}

/* ---- words */

/* Each form once: its six numbers, and its word as an assembler writes it. */
struct known_word {
    uint32_t six[6];
    uint32_t word;
};

static const struct known_word known_words[] = {
    { { 128, 0, 1, 2, 0, 3 }, 0x82008003 },            /* add %g2, %g3, %g1 */
    { { 129, 0, 17, 16, 1, 0xFFFFFFFF }, 0xA20C3FFF }, /* and %l0, -1, %l1 */
    { { 130, 0, 8, 0, 1, 4095 }, 0x90102FFF },         /* or %g0, 4095, %o0 */
    { { 131, 0, 29, 31, 0, 30 }, 0xBA1FC01E },         /* xor %i7, %i6, %i5 */
    { { 132, 0, 14, 14, 1, 0xFFFFF000 }, 0x9C23B000 }, /* sub %o6, -4096, %o6 */
    { { 133, 0, 2, 1, 1, 1 }, 0x84286001 },            /* andn %g1, 1, %g2 */
    { { 134, 0, 3, 1, 0, 2 }, 0x86304002 },            /* orn %g1, %g2, %g3 */
    { { 135, 0, 7, 0, 0, 7 }, 0x8E380007 },            /* xnor %g0, %g7, %g7 */
    { { 136, 0, 10, 8, 0, 9 }, 0x94420009 },           /* addx %o0, %o1, %o2 */
    { { 138, 0, 1, 2, 0, 3 }, 0x82508003 },            /* umul %g2, %g3, %g1 */
    { { 139, 0, 17, 16, 1, 0xFFFFFFFF }, 0xA25C3FFF }, /* smul %l0, -1, %l1 */
    { { 140, 0, 10, 8, 1, 0 }, 0x94622000 },           /* subx %o0, 0, %o2 */
    { { 144, 0, 1, 2, 0, 3 }, 0x82808003 },            /* addcc %g2, %g3, %g1 */
    { { 145, 0, 17, 16, 1, 0xFFFFFFFF }, 0xA28C3FFF }, /* andcc %l0, -1, %l1 */
    { { 146, 0, 8, 0, 1, 4095 }, 0x90902FFF },         /* orcc %g0, 4095, %o0 */
    { { 147, 0, 29, 31, 0, 30 }, 0xBA9FC01E },         /* xorcc %i7, %i6, %i5 */
    { { 148, 0, 14, 14, 1, 0xFFFFF000 }, 0x9CA3B000 }, /* subcc %o6, -4096, %o6 */
    { { 149, 0, 2, 1, 1, 1 }, 0x84A86001 },            /* andncc %g1, 1, %g2 */
    { { 150, 0, 3, 1, 0, 2 }, 0x86B04002 },            /* orncc %g1, %g2, %g3 */
    { { 151, 0, 7, 0, 0, 7 }, 0x8EB80007 },            /* xnorcc %g0, %g7, %g7 */
    { { 152, 0, 10, 8, 0, 9 }, 0x94C20009 },           /* addxcc %o0, %o1, %o2 */
    { { 154, 0, 29, 31, 0, 30 }, 0xBAD7C01E },         /* umulcc %i7, %i6, %i5 */
    { { 155, 0, 14, 14, 1, 0xFFFFF000 }, 0x9CDBB000 }, /* smulcc %o6, -4096, %o6 */
    { { 156, 0, 10, 8, 1, 0 }, 0x94E22000 },           /* subxcc %o0, 0, %o2 */
    { { 165, 0, 2, 1, 1, 31 }, 0x8528601F },           /* sll %g1, 31, %g2 */
    { { 166, 0, 3, 1, 0, 2 }, 0x87304002 },            /* srl %g1, %g2, %g3 */
    { { 167, 0, 25, 24, 1, 0 }, 0xB33E2000 },          /* sra %i0, 0, %i1 */
    { { 168, 0, 17, 0, 0, 0 }, 0xA3400000 },           /* rd %y, %l1 */
    { { 176, 0, 0, 24, 1, 4095 }, 0x81862FFF },        /* wr %i0, 4095, %y */
    { { 184, 0, 0, 15, 1, 8 }, 0x81C3E008 },           /* jmpl %o7 + 8, %g0 */
    { { 186, 0, 8, 1, 1, 127 }, 0x91D0607F },          /* ta %g1 + 127 */
    { { 188, 0, 14, 14, 1, 0xFFFFFFA0 }, 0x9DE3BFA0 }, /* save %o6, -96, %o6 */
    { { 189, 0, 8, 24, 0, 17 }, 0x91EE0011 },          /* restore %i0, %l1, %o0 */
    { { 192, 0, 3, 1, 0, 2 }, 0xC6004002 },            /* ld [%g1 + %g2], %g3 */
    { { 193, 0, 3, 1, 1, 0xFFFFFFFF }, 0xC6087FFF },   /* ldub [%g1 - 1], %g3 */
    { { 194, 0, 9, 8, 0, 0 }, 0xD2120000 },            /* lduh [%o0], %o1 */
    { { 196, 0, 31, 14, 1, 92 }, 0xFE23A05C },         /* st %i7, [%o6 + 92] */
    { { 197, 0, 1, 2, 0, 3 }, 0xC2288003 },            /* stb %g1, [%g2 + %g3] */
    { { 198, 0, 1, 2, 1, 0xFFFFFFFE }, 0xC230BFFE },   /* sth %g1, [%g2 - 2] */
    { { 201, 0, 21, 23, 0, 22 }, 0xEA4DC016 },         /* ldsb [%l7 + %l6], %l5 */
    { { 202, 0, 21, 23, 1, 2 }, 0xEA55E002 },          /* ldsh [%l7 + 2], %l5 */
    { { 4, 0, 31, 0, 0, 0x3FFFFF }, 0x3F3FFFFF },      /* sethi 0x3FFFFF, %i7 */
    { { 64, 0, 0, 0, 0, 0xFFFFFFFF }, 0x7FFFFFFF },    /* call, one word back */
    { { 2, 1, 9, 0, 0, 0xFFFFFFFE }, 0x32BFFFFE },     /* bne,a, two words back */
};

enum { FORMS = sizeof known_words / sizeof *known_words };

static void put_six(uint8_t *bytes, const uint32_t *six)
{
    for (int i = 0; i < 6; i++)
        put_number(bytes, i, six[i]);
}

static struct pijorrel_written written(uint32_t form, uint32_t annul, uint32_t rd, uint32_t rs1, uint32_t mark,
                                       uint32_t value)
{
    const uint32_t six[6] = { form, annul, rd, rs1, mark, value };
    uint8_t bytes[PIJORREL_INSTRUCTION];
    put_six(bytes, six);
    return pijorrel_write(bytes);
}

static int is_word(struct pijorrel_written w, uint32_t word)
{
    return w.number == 0 && w.value == word;
}

static int unfit(struct pijorrel_written w, uint32_t bits)
{
    return w.number == 7 && w.value == bits;
}

/* A word reads as these six numbers, and nothing beside them is written; the bytes held no answer before. */
static int reads_as(uint32_t word, const uint32_t *six)
{
    uint8_t area[PIJORREL_INSTRUCTION + 2 * GUARD], known[PIJORREL_INSTRUCTION + 2 * GUARD];
    memset(area, 0xA5, sizeof area);
    memset(known, 0xA5, sizeof known);
    put_six(known + GUARD, six);
    pijorrel_read(word, area + GUARD);
    return memcmp(area, known, sizeof area) == 0;
}

static int is_unknown(uint32_t word)
{
    static const uint32_t zeros[6] = { 0, 0, 0, 0, 0, 0 };
    return reads_as(word, zeros);
}

static void each_form(void)
{
    CHECK(sizeof(struct pijorrel_written) == 8 && offsetof(struct pijorrel_written, value) == 4);
    CHECK(PIJORREL_INSTRUCTION == 24);
    for (int i = 0; i < FORMS; i++) {
        uint8_t bytes[PIJORREL_INSTRUCTION], kept[PIJORREL_INSTRUCTION];
        put_six(bytes, known_words[i].six);
        memcpy(kept, bytes, sizeof kept);
        CHECK(is_word(pijorrel_write(bytes), known_words[i].word) && memcmp(bytes, kept, sizeof kept) == 0);
        CHECK(reads_as(known_words[i].word, known_words[i].six));
    }
}

/* Other forms have no word: 7 and 0, whatever the numbers are. */
static void no_other_form(void)
{
    int fit = 0, without = 0;
    for (uint32_t form = 0; form < 1024; form++) {
        fit += written(form, 0, 0, 0, 0, 0).number == 0;
        without += unfit(written(form, 9, 99, 99, 1, 0xFFFF0000), 0);
    }
    CHECK(fit == FORMS && without == 1024 - FORMS);
    CHECK(unfit(written(0xFFFFFFFF, 0, 0, 0, 0, 0), 0) && unfit(written(128 + (1u << 31), 0, 0, 0, 0, 0), 0));
    CHECK(is_unknown(0) && is_unknown(0xFFFFFFFF) && is_unknown(0xC0180000)); /* unimp, op3 63, ldd */
}

/* Of each field the last number that fits and the first that does not, on both sides of a signed one. */
static void each_field(void)
{
    CHECK(is_word(written(128, 0, 31, 31, 0, 31), 0xBE07C01F));
    CHECK(unfit(written(128, 0, 32, 0, 0, 0), 5) && unfit(written(128, 0, 0, 32, 0, 0), 5));
    CHECK(unfit(written(128, 0, 0, 0, 0, 32), 5) && unfit(written(197, 0, 0, 0, 0, 0xFFFFFFFF), 5));
    CHECK(unfit(written(166, 0, 0, 0, 0, 32), 5) && unfit(written(186, 0, 0, 0, 0, 32), 5));
    CHECK(unfit(written(128, 0, 0, 0, 1, 4096), 13) && unfit(written(184, 0, 0, 0, 1, 0xFFFFEFFF), 13));
    CHECK(unfit(written(165, 0, 0, 0, 1, 32), 5) && unfit(written(167, 0, 0, 0, 1, 0xFFFFFFFF), 5));
    CHECK(unfit(written(186, 0, 0, 0, 1, 128), 7) && unfit(written(186, 0, 0, 0, 1, 0xFFFFFFFF), 7));
    CHECK(is_word(written(186, 0, 15, 0, 1, 0), 0x9FD02000) && unfit(written(186, 0, 16, 0, 1, 0), 4));
    CHECK(is_word(written(2, 0, 15, 0, 0, 0x1FFFFF), 0x1E9FFFFF) && unfit(written(2, 0, 15, 0, 0, 0x200000), 22));
    CHECK(is_word(written(2, 1, 0, 0, 0, 0xFFE00000), 0x20A00000) && unfit(written(2, 1, 0, 0, 0, 0xFFDFFFFF), 22));
    CHECK(unfit(written(2, 0, 16, 0, 0, 0), 4));
    CHECK(unfit(written(4, 0, 0, 0, 0, 0x400000), 22) && unfit(written(4, 0, 32, 0, 0, 0), 5));
    CHECK(is_word(written(64, 0, 0, 0, 0, 0x1FFFFFFF), 0x5FFFFFFF) && unfit(written(64, 0, 0, 0, 0, 0x20000000), 30));
    CHECK(is_word(written(64, 0, 0, 0, 0, 0xE0000000), 0x60000000) && unfit(written(64, 0, 0, 0, 0, 0xDFFFFFFF), 30));
}

/* The same of products, save and restore, rdy and wry. */
static void each_field_added(void)
{
    static const uint32_t forms[] = { 138, 139, 154, 155, 188, 189 };
    for (int i = 0; i < 6; i++) {
        uint32_t form = forms[i], bits = 2u << 30 | (form - 128) << 19;
        CHECK(is_word(written(form, 0, 31, 31, 0, 31), bits | 0x3E07C01F));
        CHECK(is_word(written(form, 0, 31, 31, 1, 4095), bits | 0x3E07EFFF));
        CHECK(is_word(written(form, 0, 0, 0, 1, 0xFFFFF000), bits | 0x3000));
        CHECK(unfit(written(form, 0, 32, 0, 0, 0), 5) && unfit(written(form, 0, 0, 32, 0, 0), 5));
        CHECK(unfit(written(form, 0, 0, 0, 0, 32), 5));
        CHECK(unfit(written(form, 0, 0, 0, 1, 4096), 13) && unfit(written(form, 0, 0, 0, 1, 0xFFFFEFFF), 13));
    }
    CHECK(is_word(written(168, 0, 31, 0, 0, 0), 0xBF400000) && unfit(written(168, 0, 32, 0, 0, 0), 5));
    CHECK(is_word(written(176, 0, 0, 31, 0, 31), 0x8187C01F) && unfit(written(176, 0, 0, 32, 0, 0), 5));
    CHECK(unfit(written(176, 0, 0, 0, 0, 32), 5));
    CHECK(is_word(written(176, 0, 0, 31, 1, 0xFFFFF000), 0x8187F000) && unfit(written(176, 0, 0, 0, 1, 4096), 13));
    CHECK(unfit(written(176, 0, 0, 0, 1, 0xFFFFEFFF), 13));
}

/* Of several numbers that do not fit, the one highest in the word counts. */
static void highest_unfit(void)
{
    CHECK(unfit(written(128, 0, 32, 0, 1, 4096), 5) && unfit(written(128, 0, 0, 32, 1, 4096), 5));
    CHECK(unfit(written(186, 0, 16, 32, 1, 128), 4) && unfit(written(186, 0, 0, 32, 1, 128), 5));
    CHECK(unfit(written(186, 0, 16, 0, 0, 32), 4) && unfit(written(2, 0, 16, 0, 0, 0x200000), 4));
    CHECK(unfit(written(4, 0, 32, 0, 0, 0x400000), 5));
    CHECK(unfit(written(155, 0, 32, 32, 1, 4096), 5) && unfit(written(176, 32, 32, 32, 1, 4096), 5));
    CHECK(unfit(written(188, 0, 32, 32, 1, 4096), 5) && unfit(written(189, 0, 0, 32, 1, 4096), 5));
}

/* Numbers that a form does not have are not looked at; of annul and of the mark any but 0 counts as 1. */
static void numbers_beside(void)
{
    const uint32_t any = 0xFFFFFFFF;
    CHECK(is_word(written(64, any, any, any, any, 1), 0x40000001));
    CHECK(is_word(written(4, any, 1, any, any, 1), 0x03000001));
    CHECK(is_word(written(2, 0, 8, any, any, 1), 0x10800001));
    CHECK(is_word(written(128, any, 1, 2, 0, 3), 0x82008003));
    CHECK(is_word(written(186, any, 8, 0, 1, 0), 0x91D02000));
    CHECK(is_word(written(138, any, 1, 2, 0, 3), 0x82508003));
    CHECK(is_word(written(188, any, 0, 0, 0, 0), 0x81E00000) && is_word(written(189, any, 0, 0, any, 0), 0x81E82000));
    CHECK(is_word(written(168, any, 17, any, any, any), 0xA3400000)); /* no rs1 and no second operand */
    CHECK(is_word(written(176, any, any, 24, any, 4095), 0x81862FFF)); /* no rd */
    for (uint32_t one = 1; one != 0; one <<= 1) {
        CHECK(is_word(written(2, one, 8, 0, 0, 1), 0x30800001) && is_word(written(128, 0, 1, 2, one, 3), 0x8200A003));
        CHECK(is_word(written(165, 0, 2, 1, one, 7), 0x85286007));
        CHECK(is_word(written(186, 0, 8, 1, one, 99), 0x91D06063));
    }
}

/* How many of the bits from low to 12 make a word unknown, each alone. */
static int strays(uint32_t word, int low)
{
    int count = 0;
    for (int bit = low; bit < 13; bit++)
        count += is_unknown(word | 1u << bit);
    return count;
}

/* Each unused bit, and none of those of a constant of thirteen; bit 29 of a Ticc, and of a wry, which has no rd. */
static void unused_bits(void)
{
    for (int i = 0; i < FORMS; i++) {
        uint32_t form = known_words[i].six[0];
        if (form < 128 || form == 168)
            continue;
        uint32_t bare = form / 64 << 30 | form % 64 << 19, constant = bare | 1u << 13;
        int low = form == 186 ? 7 : form >= 165 && form <= 167 ? 5 : 13, top = form == 186 || form == 176;
        CHECK(!is_unknown(bare) && strays(bare, 5) == 8 && strays(bare, 0) == 8);
        CHECK(!is_unknown(constant) && strays(constant, low) == 13 - low && strays(constant, 0) == 13 - low);
        CHECK(is_unknown(bare | 1u << 29) == top && is_unknown(constant | 1u << 29) == top);
    }
}

static int ends_the_old_core(uint32_t word)
{
    uint8_t image[4];
    struct guarded g = fresh(0);
    put_number(image, 0, word);
    struct pijorrel_end end = pijorrel_old_run(image, 4, 0, 0, g.state, NULL, 0, 1);
    return end.end == 3 && end.number == 0;
}

static int unfit_for_kind(uint32_t kind, uint32_t word)
{
    uint8_t list[12], state[PIJORREL_NEW_STATE] = { 0 };
    put_number(list, 0, kind);
    put_number(list, 1, word);
    put_number(list, 2, 0);
    struct pijorrel_end end = pijorrel_new_run(list, 12, NULL, 0, 0, 4, 0, state, NULL, 0, 1);
    return end.end == 7 && end.number == 0;
}

/* In the delay slot of jmpl %o7, %g0: the word is illegal, and no transfer. */
static int translates_to_an_end(uint32_t word)
{
    uint8_t image[8], table[32], made[48], entry[4] = { 0 };
    put_number(image, 0, 0x81C3C000);
    put_number(image, 1, word);
    struct pijorrel_answer a = pijorrel_translate(image, 8, 0, entry, 4, table, 32, made, 48);
    return a.number == 0 && a.first == 2 && a.second == 3 && number_at(made, 6) == 7 && number_at(made, 7) == 3
        && number_at(made, 8) == 4;
}

/* xor %g1, %g2, %g3 and jmpl %o7, %g0, each with bit 5 set, where the cores and the translator read them. */
static void unused_bits_elsewhere(void)
{
    static const uint32_t words[] = { 0x86184002 | 1u << 5, 0x81C3C000 | 1u << 5 };
    for (uint32_t i = 0; i < 2; i++) {
        CHECK(ends_the_old_core(words[i]));
        CHECK(unfit_for_kind(1 + 2 * i, words[i])); /* kind 1, or 3 for the jmpl */
        CHECK(translates_to_an_end(words[i]));
    }
}

/* Whether no reader knows a word of op3 10, 11, 26, 27, 40, 48, 60 or 61. */
static int is_illegal(uint32_t word)
{
    return is_unknown(word) && ends_the_old_core(word) && unfit_for_kind(1, word) && translates_to_an_end(word);
}

/* Each bit that a product, a rdy or a wry, a save or a restore may not have, alone, in every reader. */
static void unused_bits_added(void)
{
    static const uint32_t operands[] = { 0x82508003, 0x82588003, 0x82D08003, 0x82D88003,
                                         0x81808003, 0x9DE38001, 0x91EE0011 };
    for (int i = 0; i < 7; i++)
        for (int bit = 5; bit < 13; bit++)
            CHECK(is_illegal(operands[i] | 1u << bit));
    for (int bit = 0; bit < 19; bit++)
        CHECK(is_illegal(0xA3400000 | 1u << bit)); /* rd %y, %l1: bits 13 to 0, and rs1 */
    for (int bit = 25; bit < 30; bit++) {
        CHECK(is_illegal(0x81808003 | 1u << bit) && is_illegal(0x81862FFF | 1u << bit)); /* the rd of a wr */
        CHECK(!is_unknown(0x81400000 | 1u << bit));                                      /* that of a rd */
    }
}

/* ---- products and Y */

/* Register 1 is 2^31, register 2 is -2, register 3 is 9, Y is 7 and all flags are set. */
static void put_machine(uint8_t *state, int y)
{
    put_number(state, 1, 0x80000000);
    put_number(state, 2, 0xFFFFFFFE);
    put_number(state, 3, 9);
    put_number(state, FLAGS, 15);
    put_number(state, y, 7);
}

/* A word, and what it leaves in its rd, in Y and in the flags. */
struct effect {
    uint32_t word, result, y, flags;
};

static const struct effect effects[] = {
    { 0x86504001, 0, 0x40000000, 15 },         /* umul %g1, %g1, %g3 */
    { 0x86584001, 0, 0x40000000, 15 },         /* smul %g1, %g1, %g3 */
    { 0x86D04001, 0, 0x40000000, 4 },          /* umulcc %g1, %g1, %g3 */
    { 0x86D84001, 0, 0x40000000, 4 },          /* smulcc %g1, %g1, %g3 */
    { 0x86504002, 0, 0x7FFFFFFF, 15 },         /* umul %g1, %g2, %g3 */
    { 0x86584002, 0, 1, 15 },                  /* smul %g1, %g2, %g3 */
    { 0x86D0BFFF, 2, 0xFFFFFFFD, 0 },          /* umulcc %g2, -1, %g3 */
    { 0x86D8BFFF, 2, 0, 0 },                   /* smulcc %g2, -1, %g3 */
    { 0x86506003, 0x80000000, 1, 15 },         /* umul %g1, 3, %g3 */
    { 0x86D86003, 0x80000000, 0xFFFFFFFE, 8 }, /* smulcc %g1, 3, %g3 */
    { 0x84508002, 4, 0xFFFFFFFC, 15 },         /* umul %g2, %g2, %g2 */
    { 0x80D04001, 0, 0x40000000, 4 },          /* umulcc %g1, %g1, %g0: Y and flags are set all the same */
    { 0x80D86003, 0, 0xFFFFFFFE, 8 },          /* smulcc %g1, 3, %g0: N of a low word that goes nowhere */
    { 0x80584001, 0, 0x40000000, 15 },         /* smul %g1, %g1, %g0 */
    { 0x87400000, 7, 7, 15 },                  /* rd %y, %g3 */
    { 0x81400000, 0, 7, 15 },                  /* rd %y, %g0 */
    { 0x81804002, 0, 0x7FFFFFFE, 15 },         /* wr %g1, %g2, %y */
    { 0x8180BFFF, 0, 1, 15 },                  /* wr %g2, -1, %y */
};

static void put_effect(uint8_t *state, int y, const struct effect *effect)
{
    put_number(state, (int)(effect->word >> 25 & 31), effect->result);
    put_number(state, FLAGS, effect->flags);
    put_number(state, y, effect->y);
}

/* Nothing else changes but the counters. */
static int done_by_old(const struct effect *effect)
{
    uint8_t image[4], known[PIJORREL_OLD_STATE];
    struct guarded g = fresh(0);
    put_number(image, 0, effect->word);
    put_machine(g.state, OLD_Y);
    memcpy(known, g.state, sizeof known);
    put_effect(known, OLD_Y, effect);
    put_number(known, PC, 4);
    put_number(known, NPC, 8);
    struct pijorrel_end end = pijorrel_old_run(image, 4, 0, 0, g.state, NULL, 0, 1);
    return end.end == 0 && memcmp(g.state, known, sizeof known) == 0 && guards_stand(&g);
}

static int done_by_new(const struct effect *effect)
{
    uint8_t list[12], state[PIJORREL_NEW_STATE] = { 0 }, known[PIJORREL_NEW_STATE];
    put_number(list, 0, 1);
    put_number(list, 1, effect->word);
    put_number(list, 2, 0);
    put_machine(state, NEW_Y);
    memcpy(known, state, sizeof known);
    put_effect(known, NEW_Y, effect);
    put_number(known, 33, 1);
    struct pijorrel_end end = pijorrel_new_run(list, 12, NULL, 0, 0, 4, 0, state, NULL, 0, 1);
    return end.end == 0 && memcmp(state, known, sizeof known) == 0;
}

static void single_products(void)
{
    for (size_t i = 0; i < sizeof effects / sizeof *effects; i++) {
        CHECK(done_by_old(&effects[i]));
        CHECK(done_by_new(&effects[i]));
    }
}

/* Begins keep Y, also where there is no place, and no end changes it. */
static void y_stays(void)
{
    const uint8_t illegal[4] = { 0, 0, 0, 0 };
    uint8_t state[PIJORREL_NEW_STATE] = { 0 }, table[16] = { 0 };
    struct guarded g = fresh(0);
    put_number(g.state, OLD_Y, 0x89ABCDEF);
    pijorrel_old_begin(0, g.state);
    CHECK(number_at(g.state, OLD_Y) == 0x89ABCDEF);
    struct pijorrel_end end = pijorrel_old_run(illegal, 4, 0, 0, g.state, NULL, 0, 1);
    CHECK(end.end == 3 && number_at(g.state, OLD_Y) == 0x89ABCDEF && guards_stand(&g));
    memset(state, 0xFF, sizeof state);
    end = pijorrel_new_run(NULL, 0, NULL, 0, 0, 0, 0, state, NULL, 0, 0);
    CHECK(end.end == 0 && number_at(state, NEW_Y) == 0xFFFFFFFF && number_at(state, FLAGS) == 15);
    CHECK(number_at(state, 35) == 0 && number_at(state, 36) == 0);
    put_number(state, NEW_Y, 0x89ABCDEF);
    end = pijorrel_new_begin(table, 16, 0, 8, 4, state);
    CHECK(end.end == 6 && number_at(state, NEW_Y) == 0x89ABCDEF);
    end = pijorrel_new_begin(table, 16, 0, 8, 0, state);
    CHECK(end.end == 0 && number_at(state, NEW_Y) == 0x89ABCDEF);
    end = pijorrel_new_run(NULL, 0, table, 16, 0, 8, 0, state, NULL, 0, 1);
    CHECK(end.end == 7 && number_at(state, NEW_Y) == 0x89ABCDEF);
}

/* wr %g0, 1, %y; rd %y, %g3, which has it at once; sethi %hi(0x80000000), %g1; umulcc %g1, %g1, %g2; ta 0. */
static void a_product_is_translated(void)
{
    static const uint32_t words[] = { 0x81802001, 0x87400000, 0x03200000, 0x84D04001, 0x91D02000 };
    uint8_t image[20], entry[4] = { 0 }, table[80], list[108], state[PIJORREL_NEW_STATE] = { 0 };
    struct guarded g = fresh(0);
    for (int i = 0; i < 5; i++)
        put_number(image, i, words[i]);
    struct pijorrel_answer a = pijorrel_translate(image, 20, 0, entry, 4, table, 80, list, 108);
    CHECK(a.number == 0 && a.first == 5 && a.second == 9);
    for (int i = 0; i < 4; i++)
        CHECK(number_at(list, 6 * i) == 1 && number_at(list, 6 * i + 1) == words[i]);
    pijorrel_new_begin(table, 80, 0, 20, 0, state);
    struct pijorrel_end end = pijorrel_new_run(list, 108, table, 80, 0, 20, 0, state, NULL, 0, 99);
    CHECK(end.end == 1 && number_at(state, NEW_Y) == 0x40000000 && number_at(state, FLAGS) == 4);
    end = pijorrel_old_run(image, 20, 0, 0, g.state, NULL, 0, 99);
    CHECK(end.end == 1 && number_at(g.state, OLD_Y) == 0x40000000 && number_at(g.state, 3) == 1);
    CHECK(memcmp(state, g.state, 4 * PC) == 0); /* registers and flags */
}

/* ---- register windows */

/* Registers 1 to 31 are 101 to 131, flags 5, Y 7, and the windows' numbers 1000 to 1127. */
static void put_windows(uint8_t *state, int y, uint32_t nesting)
{
    for (int r = 0; r < 32; r++)
        put_number(state, r, r ? 100 + (uint32_t)r : 0);
    put_number(state, FLAGS, 5);
    put_number(state, y, 7);
    put_number(state, y + 1, nesting);
    for (int k = 0; k < 16 * WINDOWS; k++)
        put_number(state, y + 2 + k, 1000 + (uint32_t)k);
}

/* Where a state has a window's register: ins, then locals; the outs are the ins of the next. */
static int windowed(int y, int window, int r)
{
    int next = (window + 1) % WINDOWS;
    return y + 2 + (r < 16 ? 16 * next + r - 8 : r < 24 ? 16 * window + r - 8 : 16 * window + r - 24);
}

/* The state as a core leaves it, with registers 8 to 31 among the windows. */
static void lay_over(uint8_t *state, int y, int window)
{
    put_number(state, y + 1, (uint32_t)window);
    for (int r = 8; r < 32; r++)
        put_number(state, windowed(y, window, r), number_at(state, r));
}

/* The same in another window, with a result there. */
static void turn_to(uint8_t *state, int y, int window, int rd, uint32_t result)
{
    for (int r = 8; r < 32; r++)
        put_number(state, r, number_at(state, windowed(y, window, r)));
    put_number(state, rd, rd ? result : 0);
    lay_over(state, y, window);
}

/* Lent, and as it counts. */
static const uint32_t nestings[][2] = { { 0, 0 }, { 1, 1 }, { 2, 2 }, { 3, 3 },   { 4, 4 },         { 5, 5 },
                                        { 6, 6 }, { 7, 6 }, { 8, 6 }, { 256, 6 }, { 0xFFFFFFFF, 6 } };

enum { NESTINGS = sizeof nestings / sizeof *nestings };

/* A run of no words and a begin, whatever the end was: what repeats the registers is not looked at, and comes out equal
 * to them. An end above 9 is none. */
static int old_bytes(const uint32_t *nesting, uint32_t end)
{
    uint8_t known[PIJORREL_OLD_STATE];
    struct guarded g = fresh(8);
    put_windows(g.state, OLD_Y, nesting[0]);
    put_number(g.state, END, end);
    put_number(g.state, NUMBER, 77);
    memcpy(known, g.state, sizeof known);
    lay_over(known, OLD_Y, (int)nesting[1]);
    put_number(known, END, end > 9 ? 0 : end);
    put_number(known, NUMBER, end > 9 || end == 0 ? 0 : 77);
    struct pijorrel_end stands = pijorrel_old_run(NULL, 0, 0, 0, g.state, NULL, 0, 0);
    int same = memcmp(g.state, known, sizeof known) == 0 && stands.end == number_at(known, END);
    put_windows(g.state, OLD_Y, nesting[0]);
    put_number(known, END, 0);
    put_number(known, NUMBER, 0);
    pijorrel_old_begin(8, g.state);
    return same && memcmp(g.state, known, sizeof known) == 0 && guards_stand(&g);
}

/* The same of the new core; its begin finds a place at 8, record 3, and none at 4. */
static int new_bytes(const uint32_t *nesting, uint32_t end)
{
    uint8_t state[PIJORREL_NEW_STATE] = { 0 }, known[PIJORREL_NEW_STATE], table[16] = { 0 };
    put_number(table, 0, 8);
    put_number(table, 3, 3);
    put_windows(state, NEW_Y, nesting[0]);
    put_number(state, 35, end);
    put_number(state, 36, 77);
    memcpy(known, state, sizeof known);
    lay_over(known, NEW_Y, (int)nesting[1]);
    put_number(known, 35, end > 9 ? 0 : end);
    put_number(known, 36, end > 9 || end == 0 ? 0 : 77);
    struct pijorrel_end stands = pijorrel_new_run(NULL, 0, table, 16, 0, 12, 0, state, NULL, 0, 0);
    int same = memcmp(state, known, sizeof known) == 0 && stands.end == number_at(known, 35);
    for (uint32_t address = 8; address >= 4; address -= 4) {
        put_windows(state, NEW_Y, nesting[0]);
        put_number(known, 33, address == 8 ? 3 : 0);
        put_number(known, 35, address == 8 ? 0 : 6);
        put_number(known, 36, address == 8 ? 0 : 4);
        pijorrel_new_begin(table, 16, 0, 12, address, state);
        same = same && memcmp(state, known, sizeof known) == 0;
    }
    return same;
}

static void window_bytes(void)
{
    CHECK(PIJORREL_OLD_STATE == 672 && PIJORREL_NEW_STATE == 668);
    for (int i = 0; i < NESTINGS; i++)
        for (uint32_t end = 0; end < 12; end++) {
            CHECK(old_bytes(nestings[i], end));
            CHECK(new_bytes(nestings[i], end));
        }
    CHECK(old_bytes(nestings[0], 0xFFFFFFFF) && new_bytes(nestings[0], 0x100));
}

/* A save or restore, the window it leads from and to, and what it leaves in its rd. */
struct turn {
    uint32_t word;
    int from, to;
    uint32_t result;
};

static const struct turn all_turns[] = {
    { 0x9DE3BFA0, 2, 3, 18 },  /* save %o6, -96, %o6 */
    { 0xA1E44009, 0, 1, 226 }, /* save %l1, %o1, %l0: both read in the old window */
    { 0xB1E44009, 5, 6, 226 }, /* save %l1, %o1, %i0: the old window's %o0 */
    { 0x83E44009, 1, 2, 226 }, /* save %l1, %o1, %g1 */
    { 0x81E00000, 3, 4, 0 },   /* save %g0, %g0, %g0 */
    { 0xA1EC7FFF, 6, 5, 116 }, /* restore %l1, -1, %l0 */
    { 0x91EE0011, 1, 0, 241 }, /* restore %i0, %l1, %o0: the old window's %i0 */
    { 0xB1EE0011, 2, 1, 241 }, /* restore %i0, %l1, %i0: in the window before */
    { 0x81EA0009, 4, 3, 0 },   /* restore %o0, %o1, %g0 */
};

static int turned_by_old(const struct turn *turn)
{
    uint8_t image[4], known[PIJORREL_OLD_STATE];
    struct guarded g = fresh(0);
    put_number(image, 0, turn->word);
    put_windows(g.state, OLD_Y, (uint32_t)turn->from);
    memcpy(known, g.state, sizeof known);
    lay_over(known, OLD_Y, turn->from);
    turn_to(known, OLD_Y, turn->to, (int)(turn->word >> 25 & 31), turn->result);
    put_number(known, PC, 4);
    put_number(known, NPC, 8);
    struct pijorrel_end end = pijorrel_old_run(image, 4, 0, 0, g.state, NULL, 0, 1);
    return end.end == 0 && memcmp(g.state, known, sizeof known) == 0 && guards_stand(&g);
}

static int turned_by_new(const struct turn *turn)
{
    uint8_t list[12] = { 0 }, state[PIJORREL_NEW_STATE] = { 0 }, known[PIJORREL_NEW_STATE];
    put_number(list, 0, 1);
    put_number(list, 1, turn->word);
    put_windows(state, NEW_Y, (uint32_t)turn->from);
    memcpy(known, state, sizeof known);
    lay_over(known, NEW_Y, turn->from);
    turn_to(known, NEW_Y, turn->to, (int)(turn->word >> 25 & 31), turn->result);
    put_number(known, 33, 1);
    struct pijorrel_end end = pijorrel_new_run(list, 12, NULL, 0, 0, 4, 0, state, NULL, 0, 1);
    return end.end == 0 && memcmp(state, known, sizeof known) == 0;
}

/* The first of them by hand too: ins are the outs before, locals and outs those of window 3. */
static void turns(void)
{
    uint8_t image[4];
    struct guarded g = fresh(0);
    for (size_t i = 0; i < sizeof all_turns / sizeof *all_turns; i++) {
        CHECK(turned_by_old(&all_turns[i]));
        CHECK(turned_by_new(&all_turns[i]));
    }
    put_number(image, 0, all_turns[0].word);
    put_windows(g.state, OLD_Y, 2);
    pijorrel_old_run(image, 4, 0, 0, g.state, NULL, 0, 1);
    CHECK(number_at(g.state, 24) == 108 && number_at(g.state, 30) == 114 && number_at(g.state, 16) == 1056);
    CHECK(number_at(g.state, 8) == 1064 && number_at(g.state, 14) == 18 && number_at(g.state, 1) == 101);
    CHECK(number_at(g.state, 40 + 32) == 124 && number_at(g.state, 40 + 40) == 116); /* what window 2 had */
    CHECK(number_at(g.state, 40 + 48) == 108 && number_at(g.state, 40 + 70) == 18);
    CHECK(number_at(g.state, 39) == 3 && number_at(g.state, 40) == 1000 && number_at(g.state, 167) == 1127);
}

/* A save at 6 and a restore at 0 end the run with the nesting, and nothing else changes. */
static int ended_by_old(uint32_t word, uint32_t nesting, uint32_t end, uint32_t number)
{
    uint8_t image[4], known[PIJORREL_OLD_STATE];
    struct guarded g = fresh(0);
    put_number(image, 0, word);
    put_windows(g.state, OLD_Y, nesting);
    memcpy(known, g.state, sizeof known);
    lay_over(known, OLD_Y, (int)number);
    put_number(known, END, end);
    put_number(known, NUMBER, number);
    struct pijorrel_end stands = pijorrel_old_run(image, 4, 0, 0, g.state, NULL, 0, 9);
    return stands.end == end && stands.number == number && memcmp(g.state, known, sizeof known) == 0;
}

static int ended_by_new(uint32_t word, uint32_t nesting, uint32_t end, uint32_t number)
{
    uint8_t list[12] = { 0 }, state[PIJORREL_NEW_STATE] = { 0 }, known[PIJORREL_NEW_STATE];
    put_number(list, 0, 1);
    put_number(list, 1, word);
    put_windows(state, NEW_Y, nesting);
    memcpy(known, state, sizeof known);
    lay_over(known, NEW_Y, (int)number);
    put_number(known, 35, end);
    put_number(known, 36, number);
    struct pijorrel_end stands = pijorrel_new_run(list, 12, NULL, 0, 0, 4, 0, state, NULL, 0, 9);
    return stands.end == end && stands.number == number && memcmp(state, known, sizeof known) == 0;
}

static void no_window_left(void)
{
    static const uint32_t saves[] = { 0x9DE3BFA0, 0x83E44009, 0x81E00000 };
    static const uint32_t restores[] = { 0x91EE0011, 0x83EC4009, 0x81E80000 };
    for (int k = 0; k < 3; k++) {
        for (int i = 6; i < NESTINGS; i++) {
            CHECK(ended_by_old(saves[k], nestings[i][0], 8, 6));
            CHECK(ended_by_new(saves[k], nestings[i][0], 8, 6));
        }
        CHECK(ended_by_old(restores[k], 0, 9, 0));
        CHECK(ended_by_new(restores[k], 0, 9, 0));
    }
}

/* A record may say ends 2 and 3 alone, also not 8 and 9; and a kind 3 holds neither word. */
static void ends_of_windows(void)
{
    for (uint32_t first = 0; first < 12; first++)
        CHECK(unfit_for_kind(7, first) == (first != 2 && first != 3));
    CHECK(unfit_for_kind(3, 0x81E00000) && unfit_for_kind(3, 0x81E80000));
}

/* save %o6, -96, %o6; call 20; nop; ta 0; nop; save %o6, -96, %o6; jmp %i7 + 8; restore %g0, 5, %o0: a routine that
 * returns 5, called from a window that is not the first. */
static void windows_are_translated(void)
{
    static const uint32_t words[] = { 0x9DE3BFA0, 0x40000004, 0x01000000, 0x91D02000,
                                      0x01000000, 0x9DE3BFA0, 0x81C7E008, 0x91E82005 };
    uint8_t image[32], entry[4] = { 0 }, table[7 * 16], list[14 * 12], state[PIJORREL_NEW_STATE] = { 0 };
    struct guarded g = fresh(0);
    for (int i = 0; i < 8; i++)
        put_number(image, i, words[i]);
    put_number(g.state, 14, 4096);
    put_number(state, 14, 4096);
    struct pijorrel_answer a = pijorrel_translate(image, 32, 0, entry, 4, table, sizeof table, list, sizeof list);
    CHECK(a.number == 0 && a.first == 7 && a.second == 13);
    CHECK(number_at(list, 0) == 1 && number_at(list, 1) == words[0] && number_at(list, 3) == 5);
    pijorrel_new_begin(table, 16 * a.first, 0, 32, 0, state);
    struct pijorrel_end end = pijorrel_new_run(list, 12 * a.second, table, 16 * a.first, 0, 32, 0, state, NULL, 0, 99);
    CHECK(end.end == 1 && end.number == 0 && number_at(state, 8) == 5 && number_at(state, 14) == 4000);
    CHECK(number_at(state, NEW_Y + 1) == 1 && number_at(state, NEW_Y + 2 + 48 + 6) == 3904); /* window 2's %o6 */
    end = pijorrel_old_run(image, 32, 0, 0, g.state, NULL, 0, 99);
    CHECK(end.end == 1 && memcmp(state, g.state, 4 * PC) == 0);
    CHECK(memcmp(state + 4 * NEW_Y, g.state + 4 * OLD_Y, 4 * (2 + 16 * WINDOWS)) == 0); /* Y, nesting, windows */
}

int main(void)
{
    couple_of_branches();
    bad_places();
    any_state();
    data_edges();
    listing_runs();
    translation_edges();
    fall_through_first();
    call_returns_a_record();
    first_bad_entry();
    each_form();
    no_other_form();
    each_field();
    each_field_added();
    highest_unfit();
    numbers_beside();
    unused_bits();
    unused_bits_elsewhere();
    unused_bits_added();
    single_products();
    y_stays();
    a_product_is_translated();
    window_bytes();
    turns();
    no_window_left();
    ends_of_windows();
    windows_are_translated();
    printf("%d of %d checks of the C interface hold\n", checks - failures, checks);
    return failures != 0;
}
