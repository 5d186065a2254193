/* The translator of documents 01 and 02 in plain C: the same rules, refusals and index as the library's. */
#include "translator.h"

#include <stdbool.h>
#include <string.h>

#include "document.h"
#include "fields.h"
#include "numbers.h"

enum { IMAGE_LIMIT = 16384, ENTRY_LIMIT = 64, PLACE_LIMIT = 8192, HEADS = 8192 };

enum refusal {
    ACCEPTED = 0,
    BAD_LENGTH = 1,
    BAD_BASE = 2,
    BAD_ENTRIES = 3,
    FORBIDDEN = 4,
    NO_ROOM = 5,
    RECORDS_SHORT = 6
};

struct image {
    const uint8_t *bytes;
    size_t length;
    uint32_t base;
};

/* The place table, and its index: places with one hash form a chain, and each number in it is one more than the
 * place's, 0 where the chain ends. */
struct table {
    uint8_t *rows;
    uint32_t room, count;
    uint32_t unplaced; /* the address of a place for which there was no room */
    uint16_t heads[HEADS];
    uint16_t links[PLACE_LIMIT];
};

static inline struct pijorrel_answer answer(enum refusal number, uint64_t first, uint64_t second)
{
    return (struct pijorrel_answer){ number, first, second };
}

/* ---- words */

/* What the rules tell apart. */
enum class { OUTSIDE, ILLEGAL, CALL, BICC, JMPL, TICC, OTHER };

static inline enum class arithmetic_class(uint32_t word)
{
    if (register_strays(word))
        return ILLEGAL;
    switch (op3(word)) {
    case OP3_ADD: case OP3_ADD | OP3_CC:
    case OP3_AND: case OP3_AND | OP3_CC:
    case OP3_OR: case OP3_OR | OP3_CC:
    case OP3_XOR: case OP3_XOR | OP3_CC:
    case OP3_SUB: case OP3_SUB | OP3_CC:
    case OP3_ANDN: case OP3_ANDN | OP3_CC:
    case OP3_ORN: case OP3_ORN | OP3_CC:
    case OP3_XNOR: case OP3_XNOR | OP3_CC:
    case OP3_ADDX: case OP3_ADDX | OP3_CC:
    case OP3_SUBX: case OP3_SUBX | OP3_CC:
    case OP3_UMUL: case OP3_UMUL | OP3_CC:
    case OP3_SMUL: case OP3_SMUL | OP3_CC:
    case OP3_SAVE: case OP3_RESTORE:
        return OTHER;
    case OP3_SLL: case OP3_SRL: case OP3_SRA: return word & UNUSED_ABOVE_5 ? ILLEGAL : OTHER;
    case OP3_RDY: return word & UNUSED_RDY ? ILLEGAL : OTHER;
    case OP3_WRY: return word & UNUSED_WRY ? ILLEGAL : OTHER;
    case OP3_JMPL: return JMPL;
    case OP3_TICC: return word & UNUSED_TICC ? ILLEGAL : TICC;
    default: return ILLEGAL;
    }
}

static inline enum class memory_class(uint32_t word)
{
    if (register_strays(word))
        return ILLEGAL;
    switch (op3(word)) {
    case OP3_LD: case OP3_LDUB: case OP3_LDUH: case OP3_LDSB: case OP3_LDSH:
    case OP3_ST: case OP3_STB: case OP3_STH: return OTHER;
    default: return ILLEGAL;
    }
}

static inline enum class class_of(uint32_t word)
{
    switch (word >> 30) {
    case FORMAT_BRANCH: return op2(word) == OP2_BICC ? BICC : op2(word) == OP2_SETHI ? OTHER : ILLEGAL;
    case FORMAT_CALL: return CALL;
    case FORMAT_ARITHMETIC: return arithmetic_class(word);
    default: return memory_class(word);
    }
}

static inline bool lies_in(const struct image *image, uint32_t address)
{
    return (uint64_t)(uint32_t)(address - image->base) + 4 <= image->length;
}

static inline uint32_t word_in(const struct image *image, uint32_t address)
{
    return word_at(image->bytes + (uint32_t)(address - image->base));
}

/* The word at an address, if that lies in the image, and its class. */
static inline enum class fetch(const struct image *image, uint32_t address, uint32_t *word)
{
    if (!lies_in(image, address))
        return OUTSIDE;
    *word = word_in(image, address);
    return class_of(*word);
}

/* ---- places: an address, a next (0 if held) and a kind, given apart, since small structs go through memory */

static inline uint32_t pair_kind(uint32_t p, uint32_t n)
{
    return n == p + 4 ? PLACE_PLAIN : PLACE_SLOT;
}

static inline uint32_t hash(uint32_t p, uint32_t n)
{
    return (p / 4 % 65536 + n / 4 % 65536 * 37) % HEADS;
}

/* A place's number, or the count of places where it is not present. */
static inline uint32_t find(const struct table *table, uint32_t p, uint32_t n, uint32_t kind)
{
    for (uint32_t j = table->heads[hash(p, n)]; j != 0; j = table->links[j - 1]) {
        const uint8_t *row = table->rows + (size_t)(j - 1) * PLACE_BYTES;
        if (word_at(row) == p && word_at(row + 4) == n && word_at(row + 8) == kind)
            return j - 1;
    }
    return table->count;
}

/* Gives a place the next number, unless it is present; false where there is no room for it. */
static bool add(struct table *table, uint32_t p, uint32_t n, uint32_t kind)
{
    uint32_t h = hash(p, n);
    uint8_t *row;
    if (find(table, p, n, kind) < table->count)
        return true;
    if (table->count == table->room) {
        table->unplaced = p;
        return false;
    }
    row = table->rows + (size_t)table->count * PLACE_BYTES;
    put_word(row, p);
    put_word(row + 4, n);
    put_word(row + 8, kind);
    table->links[table->count] = table->heads[h];
    table->heads[h] = (uint16_t)++table->count;
    return true;
}

static inline bool add_pair(struct table *table, uint32_t p, uint32_t n)
{
    return add(table, p, n, pair_kind(p, n));
}

static inline bool add_plain(struct table *table, uint32_t p)
{
    return add(table, p, p + 4, PLACE_PLAIN);
}

/* ---- the walk */

static inline bool add_branch(struct table *table, uint32_t word, uint32_t target, uint32_t next)
{
    uint32_t past = annul_bit(word) ? next + 4 : next; /* where it goes on if it is not taken */
    if (cond(word) == COND_NEVER)
        return add_plain(table, past);
    if (cond(word) == COND_ALWAYS)
        return annul_bit(word) ? add_plain(table, target) : add_pair(table, next, target);
    return add_plain(table, past) && add_pair(table, next, target);
}

/* Where the callee of a call that returns a record comes back past. */
static inline bool unimp_at(const struct image *image, uint32_t address)
{
    uint32_t word;
    if (!lies_in(image, address))
        return false;
    word = word_in(image, address);
    return word >> 30 == FORMAT_BRANCH && op2(word) == OP2_UNIMP;
}

static inline bool add_returns(struct table *table, const struct image *image, uint32_t p)
{
    return add_plain(table, p + 8) && (!unimp_at(image, p + 8) || add_plain(table, p + 12));
}

/* Adds what follows the word of a plain or slot place; false where there is no room. */
static inline bool add_followers(struct table *table, const struct image *image, uint32_t p, uint32_t n,
                                 enum class class, uint32_t word)
{
    switch (class) {
    case OUTSIDE: case ILLEGAL: return true;
    case CALL: return add_pair(table, n, p + disp30(word)) && add_returns(table, image, p);
    case BICC: return add_branch(table, word, p + disp22(word), n);
    case JMPL: return add(table, n, 0, PLACE_HELD) && (rd(word) == 0 || add_returns(table, image, p));
    case TICC: return cond(word) == COND_ALWAYS || add_plain(table, n);
    default: return add_plain(table, n);
    }
}

static inline bool may_be_held(enum class class, uint32_t word)
{
    if (class == BICC)
        return cond(word) == COND_NEVER && !annul_bit(word);
    return class != CALL && class != JMPL;
}

/* Entries become places, then each place in number order adds its followers. */
static struct pijorrel_answer walk(const struct image *image, const uint8_t *entries, size_t entry_count,
                                   struct table *table)
{
    for (size_t i = 0; i < entry_count; i++)
        if (!add_plain(table, word_at(entries + 4 * i)))
            return answer(NO_ROOM, table->unplaced, 0);
    for (uint32_t i = 0; i < table->count; i++) {
        const uint8_t *row = table->rows + (size_t)i * PLACE_BYTES;
        uint32_t p = word_at(row), word = 0;
        enum class class = fetch(image, p, &word);
        if (word_at(row + 8) == PLACE_HELD) {
            if (!may_be_held(class, word))
                return answer(FORBIDDEN, p, 0);
        } else if (!add_followers(table, image, p, word_at(row + 4), class, word)) {
            return answer(NO_ROOM, table->unplaced, 0);
        }
    }
    return answer(ACCEPTED, table->count, 0);
}

/* ---- records */

static inline uint32_t group_size(bool held, enum class class, uint32_t word)
{
    bool settled = cond(word) == COND_ALWAYS || cond(word) == COND_NEVER;
    switch (class) {
    case OUTSIDE: case ILLEGAL: return 1;
    case TICC: return cond(word) == COND_ALWAYS ? 1 : 2;
    case BICC: return settled && !held ? 1 : 2;
    default: return 2;
    }
}

/* Gives each place its first record, and answers the records in all. */
static uint32_t lay_out(const struct image *image, struct table *table)
{
    uint32_t total = 0;
    for (uint32_t i = 0; i < table->count; i++) {
        uint8_t *row = table->rows + (size_t)i * PLACE_BYTES;
        uint32_t word = 0;
        enum class class = fetch(image, word_at(row), &word);
        put_word(row + 12, total);
        total += group_size(word_at(row + 8) == PLACE_HELD, class, word);
    }
    return total;
}

/* Puts a record and answers where the next one comes. */
static inline uint8_t *put_record(uint8_t *at, enum kind kind, uint32_t first, uint32_t second)
{
    put_word(at, kind);
    put_word(at + 4, first);
    put_word(at + 8, second);
    return at + RECORD_BYTES;
}

/* Every place that a record names is in the table. */
static inline uint32_t first_record(const struct table *table, uint32_t p, uint32_t n, uint32_t kind)
{
    return word_at(table->rows + (size_t)find(table, p, n, kind) * PLACE_BYTES + 12);
}

static inline uint32_t first_of_pair(const struct table *table, uint32_t p, uint32_t n)
{
    return first_record(table, p, n, pair_kind(p, n));
}

static inline uint8_t *put_go(uint8_t *at, uint32_t record)
{
    return put_record(at, KIND_GO, record, 0);
}

static inline uint8_t *put_branch(uint8_t *at, const struct table *table, uint32_t word, uint32_t target,
                                  uint32_t next)
{
    uint32_t past = annul_bit(word) ? next + 4 : next;
    if (cond(word) == COND_ALWAYS && annul_bit(word))
        return put_go(at, first_of_pair(table, target, target + 4));
    if (cond(word) == COND_ALWAYS)
        return put_go(at, first_of_pair(table, next, target));
    if (cond(word) != COND_NEVER)
        at = put_record(at, KIND_GO_IF, cond(word), first_of_pair(table, next, target));
    return put_go(at, first_of_pair(table, past, past + 4));
}

/* The group of a plain or slot place. */
static inline uint8_t *put_group(uint8_t *at, const struct table *table, uint32_t p, uint32_t n, enum class class,
                                 uint32_t word)
{
    switch (class) {
    case OUTSIDE: return put_record(at, KIND_END, END_OUTSIDE, p);
    case ILLEGAL: return put_record(at, KIND_END, END_ILLEGAL, p);
    case CALL: return put_go(put_record(at, KIND_LINK, p, 0), first_of_pair(table, n, p + disp30(word)));
    case BICC: return put_branch(at, table, word, p + disp22(word), n);
    case JMPL: return put_go(put_record(at, KIND_HOLD, word, p), first_record(table, n, 0, PLACE_HELD));
    default: break;
    }
    at = put_record(at, KIND_WORD, word, 0);
    return class == TICC && cond(word) == COND_ALWAYS ? at : put_go(at, first_of_pair(table, n, n + 4));
}

static inline uint8_t *put_held_group(uint8_t *at, uint32_t p, enum class class, uint32_t word)
{
    if (class == OUTSIDE || class == ILLEGAL)
        return put_record(at, KIND_END, class == OUTSIDE ? END_OUTSIDE : END_ILLEGAL, p);
    at = put_record(at, KIND_WORD, word, 0);
    return class == TICC && cond(word) == COND_ALWAYS ? at : put_record(at, KIND_GO_HELD, 0, 0);
}

static void put_groups(const struct image *image, const struct table *table, uint8_t *at)
{
    for (uint32_t i = 0; i < table->count; i++) {
        const uint8_t *row = table->rows + (size_t)i * PLACE_BYTES;
        uint32_t p = word_at(row), word = 0;
        enum class class = fetch(image, p, &word);
        if (word_at(row + 8) == PLACE_HELD)
            at = put_held_group(at, p, class, word);
        else
            at = put_group(at, table, p, word_at(row + 4), class, word);
    }
}

/* ---- the whole */

/* Refusals 1 to 3, or accepted. */
static struct pijorrel_answer accept_input(const struct image *image, const uint8_t *entries, size_t entry_count)
{
    if (image->length == 0 || image->length > IMAGE_LIMIT || image->length % 4 != 0)
        return answer(BAD_LENGTH, image->length, 0);
    if (image->base % 4 != 0)
        return answer(BAD_BASE, image->base, 0);
    if (entry_count == 0 || entry_count > ENTRY_LIMIT)
        return answer(BAD_ENTRIES, 0, 0);
    for (size_t i = 0; i < entry_count; i++) {
        uint32_t entry = word_at(entries + 4 * i);
        if (entry % 4 != 0 || !lies_in(image, entry))
            return answer(BAD_ENTRIES, i + 1, 0);
    }
    return answer(ACCEPTED, 0, 0);
}

/* Past what it counts, the buffers are left as they come. */
static struct pijorrel_answer attempt(const struct image *image, const uint8_t *entries, size_t entry_count,
                                      uint8_t *places, size_t places_length, uint8_t *records, size_t records_length)
{
    struct table table;
    struct pijorrel_answer a = accept_input(image, entries, entry_count);
    if (a.number != ACCEPTED)
        return a;
    table.rows = places;
    table.room = places_length / PLACE_BYTES < PLACE_LIMIT ? (uint32_t)(places_length / PLACE_BYTES) : PLACE_LIMIT;
    table.count = 0;
    memset(table.heads, 0, sizeof table.heads); /* a link is read only after it was written */
    a = walk(image, entries, entry_count, &table);
    if (a.number != ACCEPTED)
        return a;
    a.second = lay_out(image, &table);
    if (records_length / RECORD_BYTES < a.second)
        return answer(RECORDS_SHORT, a.second, 0);
    put_groups(image, &table, records);
    return a;
}

static inline void clear_from(uint8_t *bytes, size_t from, size_t length)
{
    if (from < length)
        memset(bytes + from, 0, length - from);
}

struct pijorrel_answer rival_translate(const uint8_t *image, size_t image_length, uint32_t base,
                                       const uint8_t *entries, size_t entries_length, uint8_t *places,
                                       size_t places_length, uint8_t *records, size_t records_length)
{
    struct image i = { image, image_length, base };
    struct pijorrel_answer a = attempt(&i, entries, entries_length / 4, places, places_length, records, records_length);
    bool accepted = a.number == ACCEPTED;
    clear_from(places, accepted ? a.first * PLACE_BYTES : 0, places_length);
    clear_from(records, accepted ? a.second * RECORD_BYTES : 0, records_length);
    return a;
}
