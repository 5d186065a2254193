/* The fields of a word, as V8 draws them; displacements in bytes. */
#ifndef FIELDS_H
#define FIELDS_H

#include <stdbool.h>
#include <stdint.h>

#include "v8.h"

/* Spreads the given sign bit over the bits above it. */
static inline uint32_t extended(uint32_t value, uint32_t sign)
{
    return (value ^ sign) - sign;
}

static inline uint32_t rd(uint32_t word) { return word >> 25 & 31; }
static inline uint32_t rs1(uint32_t word) { return word >> 14 & 31; }
static inline uint32_t op2(uint32_t word) { return word >> 22 & 7; }
static inline uint32_t op3(uint32_t word) { return word >> 19 & 63; }
static inline uint32_t cond(uint32_t word) { return word >> 25 & 15; }
static inline uint32_t annul_bit(uint32_t word) { return word >> 29 & 1; }
static inline uint32_t disp22(uint32_t word) { return extended(word & 0x3FFFFF, 0x200000) << 2; }
static inline uint32_t disp30(uint32_t word) { return word << 2; }

/* Unused bits: those above a register's number or a shift's constant, a Ticc's, and all below op3 of rdy, rd of wry. A
 * word that has one set is illegal. */
#define UNUSED_ABOVE_5 0x1FE0u
#define UNUSED_TICC 0x20001F80u
#define UNUSED_RDY 0x0007FFFFu
#define UNUSED_WRY 0x3E000000u

static inline bool is_constant(uint32_t word) { return word & 0x2000; }
static inline bool register_strays(uint32_t word) { return !is_constant(word) && (word & UNUSED_ABOVE_5); }

#endif
