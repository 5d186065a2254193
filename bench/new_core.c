/* The new core of document 01 in plain C: the same kinds of records, tests and ends as the library's. */
#include "new_core.h"
#include "effect.h"

/* What the core is given beside its state and the data. */
struct program {
    const uint8_t *records;
    size_t record_count;
    const uint8_t *places;
    size_t place_count;
    uint32_t base;
    uint32_t image_length;
};

static inline void bad_record(struct rival_new_state *s)
{
    stop(&s->m, END_BAD_RECORD, s->record);
}

/* The effect of a word, or false if it is unfit: illegal, call, jmpl or any Bicc but 0 without annul. */
static inline bool perform(struct machine *m, uint32_t word, const struct area *data)
{
    switch (word >> 30) {
    case FORMAT_BRANCH:
        if (op2(word) == OP2_BICC)
            return cond(word) == 0 && !annul_bit(word);
        if (op2(word) != OP2_SETHI)
            return false;
        put_register(m, rd(word), word << 10);
        return true;
    case FORMAT_CALL:
        return false;
    case FORMAT_ARITHMETIC:
        return arithmetic(m, word) == DONE;
    default:
        return memory(m, word, data) == DONE;
    }
}

/* Kind 1 */
static inline void do_word(struct rival_new_state *s, uint32_t word, const struct area *data)
{
    if (!perform(&s->m, word, data))
        bad_record(s);
    else if (s->m.end.end == 0)
        s->record++;
}

/* Kind 3 */
static inline void hold(struct rival_new_state *s, uint32_t word, uint32_t source)
{
    if (word >> 30 != FORMAT_ARITHMETIC || op3(word) != OP3_JMPL || register_strays(word))
        bad_record(s);
    else if (jump(&s->m, word, source, &s->held))
        s->record++;
}

/* Kind 4 */
static inline void go_if(struct rival_new_state *s, uint32_t condition, uint32_t record)
{
    if (condition > 15)
        bad_record(s);
    else
        s->record = holds(&s->m, condition) ? record : s->record + 1;
}

/* Kind 6: the lowest-numbered plain place of the held address. */
static inline void go_held(struct rival_new_state *s, const struct program *p)
{
    const uint8_t *place = p->places;
    for (size_t i = 0; i < p->place_count; i++, place += PLACE_BYTES) {
        if (word_at(place) == s->held && word_at(place + 8) == 0) {
            s->record = word_at(place + 12);
            return;
        }
    }
    stop(&s->m, (uint64_t)(s->held - p->base) + 4 <= p->image_length ? END_NO_PLACE : END_OUTSIDE, s->held);
}

/* Kind 7 */
static inline void end_as(struct rival_new_state *s, uint32_t end, uint32_t address)
{
    if (end == END_OUTSIDE || end == END_ILLEGAL)
        stop(&s->m, end, address);
    else
        bad_record(s);
}

static inline void step(struct rival_new_state *s, const struct program *p, const struct area *data)
{
    const uint8_t *at;
    uint32_t first;

    if (s->record >= p->record_count) {
        bad_record(s);
        return;
    }
    at = p->records + (size_t)s->record * RECORD_BYTES;
    first = word_at(at + 4);
    switch (word_at(at)) {
    case KIND_WORD: do_word(s, first, data); break;
    case KIND_LINK: put_register(&s->m, 15, first); s->record++; break;
    case KIND_HOLD: hold(s, first, word_at(at + 8)); break;
    case KIND_GO_IF: go_if(s, first, word_at(at + 8)); break;
    case KIND_GO: s->record = first; break;
    case KIND_GO_HELD: go_held(s, p); break;
    case KIND_END: end_as(s, first, word_at(at + 8)); break;
    default: bad_record(s);
    }
}

/* The state is worked on as a local copy, which no store to the data can change behind the compiler's back; the
 * registers, which are loaded at each use, stay in the caller's array. */
struct pijorrel_end rival_new_run(const uint8_t *records, size_t records_length, const uint8_t *places,
                                  size_t places_length, uint32_t base, uint32_t image_length, uint32_t data_base,
                                  struct rival_new_state *state, uint8_t *data, size_t data_length,
                                  uint16_t count)
{
    struct program program = {
        records, records_length / RECORD_BYTES, places, places_length / PLACE_BYTES, base, image_length
    };
    struct area area = data_area(data, data_length, data_base);
    struct rival_new_state s = *state;
    for (uint32_t i = 0; i < count && s.m.end.end == 0; i++)
        step(&s, &program, &area);
    *state = s;
    return s.m.end;
}
