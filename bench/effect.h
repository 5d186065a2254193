/* What the rivals of both cores share: registers, flags, ends, the data area, and the effect of every word that does
 * not transfer control. Each rival includes it, so that its compiler sees all of it at once. */
#ifndef RIVAL_EFFECT_H
#define RIVAL_EFFECT_H

#include <stdbool.h>
#include <stddef.h>
#include <stdint.h>

#include "document.h"
#include "fields.h"
#include "machine.h"
#include "numbers.h"

#define DATA_LIMIT 65536u

/* One bit for each flag value, lowest first. */
static const uint16_t conditions[16] = {
    0x0000, 0xF0F0, 0xF3FC, 0x33CC, 0xFAFA, 0xAAAA, 0xFF00, 0xCCCC,
    0xFFFF, 0x0F0F, 0x0C03, 0xCC33, 0x0505, 0x5555, 0x00FF, 0x3333
};

struct area {
    uint8_t *bytes;
    size_t length;
    uint32_t base;
};

/* Of a lent data area the first 65,536 bytes exist. */
static inline struct area data_area(uint8_t *data, size_t length, uint32_t base)
{
    return (struct area){ data, length < DATA_LIMIT ? length : DATA_LIMIT, base };
}

/* ---- the second operand */

static inline uint32_t operand(const struct machine *m, uint32_t word)
{
    if (is_constant(word))
        return extended(word & 0x1FFF, 0x1000);
    return m->registers[word & 31];
}

/* ---- registers, flags and ends */

/* Register 0 keeps its 0, so that reading needs no test. */
static inline void put_register(struct machine *m, uint32_t number, uint32_t value)
{
    m->registers[number] = value;
    m->registers[0] = 0;
}

static inline void stop(struct machine *m, uint32_t end, uint32_t number)
{
    m->end.end = end;
    m->end.number = number;
}

static inline bool holds(const struct machine *m, uint32_t condition)
{
    return conditions[condition] >> m->flags & 1;
}

/* ---- windows */

/* Goes to a window beside the current one: the globals go along, and the numbers that both have, outs in one and ins in
 * the other. */
static inline void go_to(struct machine *m, uint32_t *window, int from, int to)
{
    memcpy(window, m->registers, 8 * sizeof *window);
    memcpy(window + to, m->registers + from, 8 * sizeof *window);
    m->registers = window;
}

/* False after ending the run, where there is no window to go to. */
static inline bool save(struct machine *m)
{
    if (m->nesting == MOST_NESTING) {
        stop(m, END_SAVES, m->nesting);
        return false;
    }
    m->nesting++;
    go_to(m, m->registers + WINDOW, OUTS, INS);
    return true;
}

static inline bool restore(struct machine *m)
{
    if (m->nesting == 0) {
        stop(m, END_RESTORES, m->nesting);
        return false;
    }
    m->nesting--;
    go_to(m, m->registers - WINDOW, INS, OUTS);
    return true;
}

/* ---- arithmetic: each gives its result and, in the flag forms, sets the flags */

static inline uint32_t flags_of(uint32_t result, uint32_t overflow, uint32_t carry)
{
    return (result >> 31) << 3 | (uint32_t)(result == 0) << 2 | overflow << 1 | carry;
}

static inline uint32_t sum(struct machine *m, uint32_t a, uint32_t b, uint32_t carry, bool cc)
{
    uint64_t wide = (uint64_t)a + b + carry;
    uint32_t result = (uint32_t)wide;
    if (cc)
        m->flags = flags_of(result, ((a ^ result) & (b ^ result)) >> 31, (uint32_t)(wide >> 32));
    return result;
}

static inline uint32_t difference(struct machine *m, uint32_t a, uint32_t b, uint32_t carry, bool cc)
{
    uint32_t result = a - b - carry;
    if (cc)
        m->flags = flags_of(result, ((a ^ b) & (a ^ result)) >> 31, (uint64_t)b + carry > a);
    return result;
}

static inline uint32_t logic(struct machine *m, uint32_t result, bool cc)
{
    if (cc)
        m->flags = flags_of(result, 0, 0);
    return result;
}

/* The high word of a product goes to Y. */
static inline uint32_t product(struct machine *m, uint64_t wide, bool cc)
{
    m->y = (uint32_t)(wide >> 32);
    return logic(m, (uint32_t)wide, cc);
}

static inline uint64_t unsigned_product(uint32_t a, uint32_t b)
{
    return (uint64_t)a * b;
}

static inline uint64_t signed_product(uint32_t a, uint32_t b)
{
    return (uint64_t)((int64_t)(int32_t)a * (int32_t)b);
}

/* The sign comes in from the left: C leaves this shift to the compiler, and gcc and clang promise it. */
static inline uint32_t shifted_signed(uint32_t a, uint32_t by)
{
    return (uint32_t)((int32_t)a >> by);
}

static inline void trap(struct machine *m, uint32_t word, uint32_t number)
{
    if (holds(m, cond(word)))
        stop(m, END_TRAP, number % 128);
}

/* What came of a word: its effect or the end it brings is done, or it is left to the core that asked. */
enum outcome { DONE, JMPL, ILLEGAL };

static inline enum outcome arithmetic(struct machine *m, uint32_t word)
{
    uint32_t a = m->registers[rs1(word)];
    uint32_t b = operand(m, word);
    uint32_t carry = m->flags & 1;
    uint32_t result;

    if (register_strays(word))
        return ILLEGAL;
    switch (op3(word)) {
    case OP3_ADD: result = sum(m, a, b, 0, false); break;
    case OP3_AND: result = logic(m, a & b, false); break;
    case OP3_OR: result = logic(m, a | b, false); break;
    case OP3_XOR: result = logic(m, a ^ b, false); break;
    case OP3_SUB: result = difference(m, a, b, 0, false); break;
    case OP3_ANDN: result = logic(m, a & ~b, false); break;
    case OP3_ORN: result = logic(m, a | ~b, false); break;
    case OP3_XNOR: result = logic(m, a ^ ~b, false); break;
    case OP3_ADDX: result = sum(m, a, b, carry, false); break;
    case OP3_SUBX: result = difference(m, a, b, carry, false); break;
    case OP3_ADD | OP3_CC: result = sum(m, a, b, 0, true); break;
    case OP3_AND | OP3_CC: result = logic(m, a & b, true); break;
    case OP3_OR | OP3_CC: result = logic(m, a | b, true); break;
    case OP3_XOR | OP3_CC: result = logic(m, a ^ b, true); break;
    case OP3_SUB | OP3_CC: result = difference(m, a, b, 0, true); break;
    case OP3_ANDN | OP3_CC: result = logic(m, a & ~b, true); break;
    case OP3_ORN | OP3_CC: result = logic(m, a | ~b, true); break;
    case OP3_XNOR | OP3_CC: result = logic(m, a ^ ~b, true); break;
    case OP3_ADDX | OP3_CC: result = sum(m, a, b, carry, true); break;
    case OP3_SUBX | OP3_CC: result = difference(m, a, b, carry, true); break;
    case OP3_UMUL: result = product(m, unsigned_product(a, b), false); break;
    case OP3_SMUL: result = product(m, signed_product(a, b), false); break;
    case OP3_UMUL | OP3_CC: result = product(m, unsigned_product(a, b), true); break;
    case OP3_SMUL | OP3_CC: result = product(m, signed_product(a, b), true); break;
    case OP3_RDY: if (word & UNUSED_RDY) return ILLEGAL; result = m->y; break;
    case OP3_WRY: if (word & UNUSED_WRY) return ILLEGAL; m->y = a ^ b; return DONE;
    case OP3_SLL: if (word & UNUSED_ABOVE_5) return ILLEGAL; result = a << (b & 31); break;
    case OP3_SRL: if (word & UNUSED_ABOVE_5) return ILLEGAL; result = a >> (b & 31); break;
    case OP3_SRA: if (word & UNUSED_ABOVE_5) return ILLEGAL; result = shifted_signed(a, b & 31); break;
    case OP3_SAVE: if (!save(m)) return DONE; result = a + b; break;
    case OP3_RESTORE: if (!restore(m)) return DONE; result = a + b; break;
    case OP3_JMPL: return JMPL;
    case OP3_TICC: if (word & UNUSED_TICC) return ILLEGAL; trap(m, word, a + b); return DONE;
    default: return ILLEGAL;
    }
    put_register(m, rd(word), result);
    return DONE;
}

/* ---- jmpl */

/* Jmpl's address comes from the registers before its own is written; a misaligned one ends the run. */
static inline bool jump(struct machine *m, uint32_t word, uint32_t source, uint32_t *target)
{
    uint32_t address = m->registers[rs1(word)] + operand(m, word);
    if (address % 4 != 0) {
        stop(m, END_MISALIGNED, address);
        return false;
    }
    put_register(m, rd(word), source);
    *target = address;
    return true;
}

/* ---- memory */

/* Where an access of a width lies in the data, or NULL after ending the run; alignment is tested before fit. */
static inline uint8_t *reach(struct machine *m, const struct area *data, uint32_t address, uint32_t width)
{
    uint32_t offset = address - data->base;
    if (address % width != 0) {
        stop(m, END_MISALIGNED, address);
        return NULL;
    }
    if ((uint64_t)offset + width > data->length) {
        stop(m, END_UNFIT, address);
        return NULL;
    }
    return data->bytes + offset;
}

static inline enum outcome memory(struct machine *m, uint32_t word, const struct area *data)
{
    uint32_t address = m->registers[rs1(word)] + operand(m, word);
    uint32_t d = rd(word);
    uint8_t *at;

    if (register_strays(word))
        return ILLEGAL;
    switch (op3(word)) {
    case OP3_LD: if ((at = reach(m, data, address, 4))) put_register(m, d, word_at(at)); break;
    case OP3_LDUB: if ((at = reach(m, data, address, 1))) put_register(m, d, *at); break;
    case OP3_LDUH: if ((at = reach(m, data, address, 2))) put_register(m, d, half_at(at)); break;
    case OP3_LDSB: if ((at = reach(m, data, address, 1))) put_register(m, d, extended(*at, 0x80)); break;
    case OP3_LDSH: if ((at = reach(m, data, address, 2))) put_register(m, d, extended(half_at(at), 0x8000)); break;
    case OP3_ST: if ((at = reach(m, data, address, 4))) put_word(at, m->registers[d]); break;
    case OP3_STB: if ((at = reach(m, data, address, 1))) *at = (uint8_t)m->registers[d]; break;
    case OP3_STH: if ((at = reach(m, data, address, 2))) put_half(at, m->registers[d]); break;
    default: return ILLEGAL;
    }
    return DONE;
}

#endif
