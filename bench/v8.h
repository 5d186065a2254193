/* Numbers of SPARC V8 words: the formats, and the op2, op3 and conditions that the rivals and the loops name. */
#ifndef V8_H
#define V8_H

enum v8_format { FORMAT_BRANCH = 0, FORMAT_CALL = 1, FORMAT_ARITHMETIC = 2, FORMAT_MEMORY = 3 };

enum v8_op2 { OP2_UNIMP = 0, OP2_BICC = 2, OP2_SETHI = 4 };

/* op3 of format 2. With bit 4 (0x10) set, the first twelve set the flags. */
enum v8_arithmetic {
    OP3_ADD = 0x00,
    OP3_AND = 0x01,
    OP3_OR = 0x02,
    OP3_XOR = 0x03,
    OP3_SUB = 0x04,
    OP3_ANDN = 0x05,
    OP3_ORN = 0x06,
    OP3_XNOR = 0x07,
    OP3_ADDX = 0x08,
    OP3_UMUL = 0x0A,
    OP3_SMUL = 0x0B,
    OP3_SUBX = 0x0C,
    OP3_CC = 0x10,
    OP3_SLL = 0x25,
    OP3_SRL = 0x26,
    OP3_SRA = 0x27,
    OP3_RDY = 0x28,
    OP3_WRY = 0x30,
    OP3_JMPL = 0x38,
    OP3_TICC = 0x3A,
    OP3_SAVE = 0x3C,
    OP3_RESTORE = 0x3D
};

/* op3 of format 3. */
enum v8_memory {
    OP3_LD = 0x00,
    OP3_LDUB = 0x01,
    OP3_LDUH = 0x02,
    OP3_ST = 0x04,
    OP3_STB = 0x05,
    OP3_STH = 0x06,
    OP3_LDSB = 0x09,
    OP3_LDSH = 0x0A
};

enum v8_condition { COND_NEVER = 0, COND_E = 1, COND_NEG = 6, COND_ALWAYS = 8, COND_NE = 9 };

#endif
