/* Words of SPARC V8, built from their fields. */
#ifndef WORDS_H
#define WORDS_H

#include <stdbool.h>
#include <stdint.h>

#include "v8.h"

static inline uint32_t with_register(uint32_t format, uint32_t op3, uint32_t rd, uint32_t rs1, uint32_t rs2)
{
    return format << 30 | rd << 25 | op3 << 19 | rs1 << 14 | rs2;
}

static inline uint32_t with_constant(uint32_t format, uint32_t op3, uint32_t rd, uint32_t rs1, int constant)
{
    return with_register(format, op3, rd, rs1, 1u << 13 | ((uint32_t)constant & 0x1FFF));
}

static inline uint32_t compute(uint32_t op3, uint32_t rd, uint32_t rs1, uint32_t rs2)
{
    return with_register(FORMAT_ARITHMETIC, op3, rd, rs1, rs2);
}

static inline uint32_t compute_constant(uint32_t op3, uint32_t rd, uint32_t rs1, int constant)
{
    return with_constant(FORMAT_ARITHMETIC, op3, rd, rs1, constant);
}

static inline uint32_t read_y(uint32_t rd)
{
    return compute(OP3_RDY, rd, 0, 0);
}

static inline uint32_t write_y(uint32_t rs1, uint32_t rs2)
{
    return compute(OP3_WRY, 0, rs1, rs2);
}

static inline uint32_t access(uint32_t op3, uint32_t rd, uint32_t rs1, uint32_t rs2)
{
    return with_register(FORMAT_MEMORY, op3, rd, rs1, rs2);
}

static inline uint32_t access_constant(uint32_t op3, uint32_t rd, uint32_t rs1, int constant)
{
    return with_constant(FORMAT_MEMORY, op3, rd, rs1, constant);
}

static inline uint32_t branch(uint32_t condition, bool annul, int words)
{
    return (uint32_t)annul << 29 | condition << 25 | (uint32_t)OP2_BICC << 22 | ((uint32_t)words & 0x3FFFFF);
}

static inline uint32_t call(int words)
{
    return (uint32_t)FORMAT_CALL << 30 | ((uint32_t)words & 0x3FFFFFFF);
}

static inline uint32_t sethi(uint32_t rd, uint32_t value)
{
    return rd << 25 | (uint32_t)OP2_SETHI << 22 | value >> 10;
}

#endif
