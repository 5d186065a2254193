/* The old core of document 01 in plain C: the same words, tests and ends as the library's. */
#include "old_core.h"
#include "effect.h"

/* Bicc: with the annul bit the slot is annulled where the condition is 8 or fails. */
static inline bool branch(const struct rival_old_state *s, uint32_t word, uint32_t *next)
{
    bool taken = holds(&s->m, cond(word));
    if (taken)
        *next = s->pc + disp22(word);
    return annul_bit(word) && (cond(word) == COND_ALWAYS || !taken);
}

static inline void execute(struct rival_old_state *s, uint32_t word, const struct area *data)
{
    uint32_t next = s->npc + 4;
    bool annul = false;

    switch (word >> 30) {
    case FORMAT_BRANCH:
        switch (op2(word)) {
        case OP2_BICC: annul = branch(s, word, &next); break;
        case OP2_SETHI: put_register(&s->m, rd(word), word << 10); break;
        default: stop(&s->m, END_ILLEGAL, s->pc);
        }
        break;
    case FORMAT_CALL:
        put_register(&s->m, 15, s->pc);
        next = s->pc + disp30(word);
        break;
    case FORMAT_ARITHMETIC:
        switch (arithmetic(&s->m, word)) {
        case DONE: break;
        case JMPL: jump(&s->m, word, s->pc, &next); break;
        case ILLEGAL: stop(&s->m, END_ILLEGAL, s->pc); break;
        }
        break;
    default:
        if (memory(&s->m, word, data) != DONE)
            stop(&s->m, END_ILLEGAL, s->pc);
    }
    if (s->m.end.end != 0)
        return;
    s->pc = s->npc;
    s->npc = next;
    s->annul = annul;
}

static inline void step(struct rival_old_state *s, const uint8_t *image, size_t image_length, uint32_t base,
                        const struct area *data)
{
    uint32_t offset = s->pc - base;
    if (s->annul) {
        s->annul = false;
        s->pc = s->npc;
        s->npc += 4;
    } else if (s->pc % 4 != 0) {
        stop(&s->m, END_MISALIGNED, s->pc);
    } else if ((uint64_t)offset + 4 > image_length) {
        stop(&s->m, END_OUTSIDE, s->pc);
    } else {
        execute(s, word_at(image + offset), data);
    }
}

/* The state is worked on as a local copy, which no store to the data can change behind the compiler's back; the
 * registers, which are loaded at each use, stay in the caller's array. */
struct pijorrel_end rival_old_run(const uint8_t *image, size_t image_length, uint32_t base,
                                  uint32_t data_base, struct rival_old_state *state,
                                  uint8_t *data, size_t data_length, uint16_t count)
{
    struct area area = data_area(data, data_length, data_base);
    struct rival_old_state s = *state;
    for (uint32_t i = 0; i < count && s.m.end.end == 0; i++)
        step(&s, image, image_length, base, &area);
    *state = s;
    return s.m.end;
}
