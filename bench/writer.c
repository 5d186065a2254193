#include "writer.h"

#include <stdbool.h>

#include "numbers.h"
#include "v8.h"

/* The six numbers of an instruction, each read where it is used. */
static inline uint32_t annul_of(const uint8_t *six) { return word_at(six + 4); }
static inline uint32_t rd_of(const uint8_t *six) { return word_at(six + 8); }
static inline uint32_t rs1_of(const uint8_t *six) { return word_at(six + 12); }
static inline uint32_t mark_of(const uint8_t *six) { return word_at(six + 16); }
static inline uint32_t value_of(const uint8_t *six) { return word_at(six + 20); }

static inline struct pijorrel_written fit(uint32_t word)
{
    return (struct pijorrel_written){ 0, word };
}

static inline struct pijorrel_written unfit(uint32_t bits)
{
    return (struct pijorrel_written){ 7, bits };
}

/* Whether a number is one of so many bits with a sign. */
static inline bool fits_signed(uint32_t value, uint32_t bits)
{
    return value + (1u << (bits - 1)) < 1u << bits;
}

static inline uint32_t low(uint32_t value, uint32_t bits)
{
    return value & ((1u << bits) - 1);
}

static inline struct pijorrel_written call_word(const uint8_t *six)
{
    uint32_t disp = value_of(six);
    return fits_signed(disp, 30) ? fit(1u << 30 | low(disp, 30)) : unfit(30);
}

static inline struct pijorrel_written branch_word(const uint8_t *six)
{
    uint32_t cond = rd_of(six), disp = value_of(six);
    if (cond > 15)
        return unfit(4);
    if (!fits_signed(disp, 22))
        return unfit(22);
    return fit((uint32_t)(annul_of(six) != 0) << 29 | cond << 25 | (uint32_t)OP2_BICC << 22 | low(disp, 22));
}

static inline struct pijorrel_written sethi_word(const uint8_t *six)
{
    uint32_t rd = rd_of(six), value = value_of(six);
    if (rd > 31)
        return unfit(5);
    if (value >= 1u << 22)
        return unfit(22);
    return fit(rd << 25 | (uint32_t)OP2_SETHI << 22 | value);
}

/* The form's op and op3, and the numbers above the operand; rd or the condition has so many bits. */
static inline struct pijorrel_written upper(uint32_t form, const uint8_t *six, uint32_t bits)
{
    uint32_t rd = rd_of(six), rs1 = rs1_of(six);
    if (rd >= 1u << bits)
        return unfit(bits);
    if (rs1 > 31)
        return unfit(5);
    return fit(form >> 6 << 30 | rd << 25 | (form & 63) << 19 | rs1 << 14);
}

/* What stands above it, and a constant of thirteen bits and a sign, or a register. */
static inline struct pijorrel_written with_operand(uint32_t above, const uint8_t *six)
{
    uint32_t value = value_of(six);
    if (mark_of(six) != 0)
        return fits_signed(value, 13) ? fit(above | 1u << 13 | low(value, 13)) : unfit(13);
    return value > 31 ? unfit(5) : fit(above | value);
}

static inline struct pijorrel_written long_word(uint32_t form, const uint8_t *six)
{
    struct pijorrel_written w = upper(form, six, 5);
    return w.number != 0 ? w : with_operand(w.value, six);
}

static inline struct pijorrel_written rdy_word(const uint8_t *six)
{
    uint32_t rd = rd_of(six);
    return rd > 31 ? unfit(5) : fit((uint32_t)FORMAT_ARITHMETIC << 30 | rd << 25 | (uint32_t)OP3_RDY << 19);
}

static inline struct pijorrel_written wry_word(const uint8_t *six)
{
    uint32_t rs1 = rs1_of(six);
    if (rs1 > 31)
        return unfit(5);
    return with_operand((uint32_t)FORMAT_ARITHMETIC << 30 | (uint32_t)OP3_WRY << 19 | rs1 << 14, six);
}

/* With a constant of so many bits without a sign, or a register. */
static inline struct pijorrel_written short_word(uint32_t form, const uint8_t *six, uint32_t rd_bits, uint32_t bits)
{
    struct pijorrel_written w = upper(form, six, rd_bits);
    uint32_t value = value_of(six), constant = mark_of(six) != 0, room = constant ? bits : 5;
    if (w.number != 0)
        return w;
    return value >> room ? unfit(room) : fit(w.value | constant << 13 | value);
}

/* The forms of format 2, without flags and with them, and of format 3. */
#define COMPUTE(op3) case FORMAT_ARITHMETIC << 6 | (op3)
#define COMPUTE_BOTH(op3) COMPUTE(op3): COMPUTE((op3) | OP3_CC)
#define ACCESS(op3) case FORMAT_MEMORY << 6 | (op3)

struct pijorrel_written rival_write(const uint8_t six[PIJORREL_INSTRUCTION])
{
    uint32_t form = word_at(six);
    switch (form) {
    case OP2_BICC: return branch_word(six);
    case OP2_SETHI: return sethi_word(six);
    case FORMAT_CALL << 6: return call_word(six);
    COMPUTE_BOTH(OP3_ADD): COMPUTE_BOTH(OP3_ADDX): COMPUTE_BOTH(OP3_SUB): COMPUTE_BOTH(OP3_SUBX):
    COMPUTE_BOTH(OP3_AND): COMPUTE_BOTH(OP3_ANDN): COMPUTE_BOTH(OP3_OR): COMPUTE_BOTH(OP3_ORN):
    COMPUTE_BOTH(OP3_XOR): COMPUTE_BOTH(OP3_XNOR): COMPUTE_BOTH(OP3_UMUL): COMPUTE_BOTH(OP3_SMUL): COMPUTE(OP3_JMPL):
    COMPUTE(OP3_SAVE): COMPUTE(OP3_RESTORE):
    ACCESS(OP3_LD): ACCESS(OP3_LDUB): ACCESS(OP3_LDUH): ACCESS(OP3_LDSB): ACCESS(OP3_LDSH):
    ACCESS(OP3_ST): ACCESS(OP3_STB): ACCESS(OP3_STH):
        return long_word(form, six);
    COMPUTE(OP3_SLL): COMPUTE(OP3_SRL): COMPUTE(OP3_SRA): return short_word(form, six, 5, 5);
    COMPUTE(OP3_TICC): return short_word(form, six, 4, 7);
    COMPUTE(OP3_RDY): return rdy_word(six);
    COMPUTE(OP3_WRY): return wry_word(six);
    default: return unfit(0);
    }
}
