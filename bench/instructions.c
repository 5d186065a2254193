#include "instructions.h"

#include <stdbool.h>

#include "numbers.h"
#include "v8.h"

enum { ARITHMETIC = FORMAT_ARITHMETIC << 6, MEMORY = FORMAT_MEMORY << 6, CALL = FORMAT_CALL << 6, PLAIN = 24 };

/* The arithmetic ones first. */
static const uint32_t forms[] = {
    ARITHMETIC + OP3_ADD, ARITHMETIC + OP3_AND, ARITHMETIC + OP3_OR, ARITHMETIC + OP3_XOR, ARITHMETIC + OP3_SUB,
    ARITHMETIC + OP3_ANDN, ARITHMETIC + OP3_ORN, ARITHMETIC + OP3_XNOR, ARITHMETIC + OP3_ADDX, ARITHMETIC + OP3_SUBX,
    ARITHMETIC + OP3_CC + OP3_ADD, ARITHMETIC + OP3_CC + OP3_AND, ARITHMETIC + OP3_CC + OP3_OR,
    ARITHMETIC + OP3_CC + OP3_XOR, ARITHMETIC + OP3_CC + OP3_SUB, ARITHMETIC + OP3_CC + OP3_ANDN,
    ARITHMETIC + OP3_CC + OP3_ORN, ARITHMETIC + OP3_CC + OP3_XNOR, ARITHMETIC + OP3_CC + OP3_ADDX,
    ARITHMETIC + OP3_CC + OP3_SUBX, ARITHMETIC + OP3_UMUL, ARITHMETIC + OP3_SMUL, ARITHMETIC + OP3_CC + OP3_UMUL,
    ARITHMETIC + OP3_CC + OP3_SMUL, ARITHMETIC + OP3_SLL, ARITHMETIC + OP3_SRL, ARITHMETIC + OP3_SRA,
    ARITHMETIC + OP3_RDY, ARITHMETIC + OP3_WRY, ARITHMETIC + OP3_JMPL, ARITHMETIC + OP3_TICC, ARITHMETIC + OP3_SAVE,
    ARITHMETIC + OP3_RESTORE, MEMORY + OP3_LD, MEMORY + OP3_LDUB, MEMORY + OP3_LDUH, MEMORY + OP3_LDSB,
    MEMORY + OP3_LDSH, MEMORY + OP3_ST, MEMORY + OP3_STB, MEMORY + OP3_STH, CALL, OP2_BICC, OP2_SETHI
};

enum { FORMS = sizeof forms / sizeof *forms };

/* The same numbers in every run, of 16 bits. */
static uint32_t drawn(uint32_t *state)
{
    *state = *state * 1664525u + 1013904223u;
    return *state >> 16;
}

/* Numbers that fit whatever the form is: a condition, registers, and a value of five bits. */
static void put_instruction(uint8_t *at, uint32_t form, uint32_t *state)
{
    put_word(at, form);
    put_word(at + 4, drawn(state) % 2);
    put_word(at + 8, drawn(state) % 16);
    put_word(at + 12, drawn(state) % 32);
    put_word(at + 16, drawn(state) % 2);
    put_word(at + 20, drawn(state) % 32);
}

/* Makes the form one that no word has, or the value, which rdy has not, too large for any field. */
static void spoil(uint8_t *at, uint32_t *state)
{
    bool in_value = drawn(state) % 2 && word_at(at) != ARITHMETIC + OP3_RDY;
    put_word(at + 20 * in_value, 1u << 31 | drawn(state));
}

void make_list(struct list *list, int number)
{
    static const char *const names[LISTS] = { "arithmetic", "all", "refused" };
    uint32_t state = (uint32_t)number, kinds = number == 0 ? PLAIN : FORMS;
    list->name = names[number];
    list->refused = 0;
    for (int i = 0; i < LIST_LENGTH; i++) {
        put_instruction(list->instructions[i], forms[drawn(&state) % kinds], &state);
        if (number == 2 && drawn(&state) % 2) {
            spoil(list->instructions[i], &state);
            list->refused++;
        }
    }
}
