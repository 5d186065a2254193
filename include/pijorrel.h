/* Pijorrel: the C interface, for C99, C++ and later. Link with target/libpijorrel.a, which needs nothing but memset.
 *
 * A loader translates an image once (pijorrel_translate), then begins a run on the new core (pijorrel_new_begin) and
 * carries it on (pijorrel_new_run) until it ends. The old core runs the image itself (pijorrel_old_begin,
 * pijorrel_old_run). examples/loader.c does all of this.
 *
 * Areas. Everything but single numbers goes through byte areas that the caller lends for the time of a call. A length
 * counts bytes; any length will do. No alignment is asked. Numbers inside areas have four bytes, big-endian. Nothing
 * outside them is read or written, and those that are const are only read.
 *
 * Calls. Every value of every number and every byte of an area is allowed: what each call answers and leaves in the
 * areas is proved for all of them. What the caller answers for, since no call can see it:
 *   - an area is there for its whole length (a state and an instruction for the length in brackets), and nobody else
 *     writes it during the call; an area of 0 bytes may be NULL, a state and an instruction may not;
 *   - an area that is not const overlaps no other area of the same call; const areas may overlap each other;
 *   - header and library fit (PIJORREL_VERSION).
 * Each call returns, allocates nothing, keeps no pointer and has no state of its own, so that calls may be made at the
 * same time as long as none writes an area that another is lent. No call takes more than 1 KiB of stack but
 * pijorrel_translate, which takes less than 34 KiB, 32 of them for its index (measured on x86-64, in tests/stack).
 *
 * Addresses are numbers modulo 2^32. An address lies in the image if (address - base) modulo 2^32, plus 4, is at most
 * the image's length; a data access of w bytes fits if (address - data_base) modulo 2^32, plus w, is at most the length
 * of the data.
 */
#ifndef PIJORREL_H
#define PIJORREL_H

#include <stddef.h>
#include <stdint.h>

#ifdef __cplusplus
extern "C" {
#endif

/* ---- whether header and library fit ----
 *
 * pijorrel_version() is the library's PIJORREL_VERSION. Equal, they fit. A revision, which rises wherever something of
 * this header changes or comes in, and the lengths of both states are parts of it. */
#define PIJORREL_VERSION ((1u * 1024 + PIJORREL_OLD_STATE) * 1024 + PIJORREL_NEW_STATE)

uint32_t pijorrel_version(void);

/* ---- a number in an area of numbers, at a position counted in numbers from 0 ---- */
static inline uint32_t pijorrel_number(const uint8_t *numbers, size_t position)
{
    const uint8_t *at = numbers + 4 * position;
    return (uint32_t)at[0] << 24 | (uint32_t)at[1] << 16 | (uint32_t)at[2] << 8 | at[3];
}

static inline void pijorrel_put_number(uint8_t *numbers, size_t position, uint32_t number)
{
    uint8_t *at = numbers + 4 * position;
    at[0] = (uint8_t)(number >> 24);
    at[1] = (uint8_t)(number >> 16);
    at[2] = (uint8_t)(number >> 8);
    at[3] = (uint8_t)number;
}

/* ---- how a run stands ----
 *
 * The end, and the number that belongs to it. The step that ends a run changes nothing but these; a run that has ended
 * stays as it is. */
enum {
    PIJORREL_END_NONE = 0,              /* still going; exactly the given count was done (0) */
    PIJORREL_END_TRAP = 1,              /* Ticc taken, the program's own way to end ((rs1 + operand) modulo 128) */
    PIJORREL_END_OUTSIDE = 2,           /* outside the image (the address) */
    PIJORREL_END_ILLEGAL = 3,           /* a word that is not known (the address) */
    PIJORREL_END_MISALIGNED = 4,        /* the PC, a jmpl's target or a data access (the address) */
    PIJORREL_END_UNFIT = 5,             /* a data access that does not fit (the address) */
    PIJORREL_END_NO_PLACE = 6,          /* new core only: an address in the image without a plain place (the address) */
    PIJORREL_END_BAD_RECORD = 7,        /* new core only (the record number): one past the last, of a kind other than 1
                                           to 7, a word that its kind cannot have, a condition above 15, a kind 7 that
                                           ends with other than 2 or 3 */
    PIJORREL_END_TOO_MANY_SAVES = 8,    /* a save at nesting 6 (the nesting) */
    PIJORREL_END_TOO_MANY_RESTORES = 9  /* a restore at nesting 0 (the nesting) */
};

struct pijorrel_end {
    uint32_t end;
    uint32_t number;
};

/* ---- register windows ----
 *
 * Eight windows, numbered by nesting: window 0 is the first, a save goes one up and a restore one down, and 7 is never
 * the current one. A state has the nesting and 128 numbers of windows, eight blocks of 16: block w has window w's ins
 * (registers 24 to 31), then its locals (registers 16 to 23). Window w's outs (registers 8 to 15) are the ins of window
 * w + 1, and window 7's those of window 0. Registers 0 to 31 of a state are those of the current window; its ins,
 * locals and outs stand among the 128 too. Lent, registers 8 to 31 count, and the 24 numbers that repeat them are not
 * looked at; left, they are equal. A nesting above 6 counts as 6.
 *
 * ---- the old core ----
 *
 * Its state: 168 numbers, registers 0 to 31 first, of which register 0 counts as 0. Any bytes are a state; an end
 * outside 1 to 9 counts as still going. All bytes 0 are the start values. Every call leaves it in normal form: register
 * 0 as 0, flags below 16, annul 0 or 1, end 0 to 9, number 0 beside end 0, nesting 0 to 6, and the current window among
 * the windows. */
#define PIJORREL_OLD_STATE 672

enum {
    PIJORREL_OLD_FLAGS = 32,   /* 8N + 4Z + 2V + C, in the low four bits */
    PIJORREL_OLD_PC = 33,
    PIJORREL_OLD_NPC = 34,
    PIJORREL_OLD_ANNUL = 35,   /* any number but 0 is set */
    PIJORREL_OLD_END = 36,
    PIJORREL_OLD_NUMBER = 37,  /* beside the end */
    PIJORREL_OLD_Y = 38,
    PIJORREL_OLD_NESTING = 39,
    PIJORREL_OLD_WINDOWS = 40  /* to 167 */
};

/* Sets PC to the address, nPC 4 further, annul clear, not ended; keeps registers, flags, Y, nesting and windows. */
void pijorrel_old_begin(uint32_t address, uint8_t state[PIJORREL_OLD_STATE]);

/* Passes count words, annulled ones counted, or fewer where the run ends; answers how it stands, as the state does.
 *   image, image_length          big-endian words, in any number; a tail too short for a word is never in the image
 *   base, data_base              the addresses of image and data
 *   state                        carried on from where it is
 *   data, data_length            read and written; of more than 65,536 bytes the first 65,536 are data
 *   count                        0 to 65,535 */
struct pijorrel_end pijorrel_old_run(const uint8_t *image, size_t image_length, uint32_t base,
                                     uint32_t data_base, uint8_t state[PIJORREL_OLD_STATE],
                                     uint8_t *data, size_t data_length, uint16_t count);

/* ---- places and records ----
 *
 * A place table has four numbers for each place, 16 bytes. A place's number is its position, counted from 0; in a
 * translation the entries come first, then what follows each place, place by place, and of what follows a conditional
 * branch the fall-through comes before the delay slot of the branch taken. A call, or a jmpl whose rd is not 0, is
 * followed by its delay slot and by where it returns to, 8 further; and then, where an unimp stands there (bits 31, 30
 * and 24 to 22 are 0), by the word behind that, to which a function returns that returns a record.
 *   0  address
 *   1  next: the address after it; 0 for a held place, where it is known only when run
 *   2  kind: 0 plain (next is address + 4), 1 slot (any other next), 2 held
 *   3  the number of the first of its records
 *
 * A record has three numbers, 12 bytes: its kind and two more. Its number is its position, counted from 0.
 *   1  do the word first: any known word but call, jmpl and Bicc, of which only bn without annul may stand here
 *   2  register 15 := first
 *   3  hold the address that the jmpl word first goes to; its rd := second, its source address
 *   4  if condition first (0 to 15, as in Bicc) holds, go to record second
 *   5  go to record first
 *   6  go by the held address: to the first record of its lowest-numbered plain place; with none the run ends, with 2
 *      outside the image, 6 inside
 *   7  end as first says (2 or 3), at address second
 * A number that a kind does not name is 0 in a translation and is not read. After 1, 2, 3 and a 4 whose condition fails
 * comes the next record.
 *
 * The new core takes any bytes as table and records. A tail too short for a whole place or record is not counted. */
#define PIJORREL_PLACE 16
#define PIJORREL_RECORD 12

/* Buffers of these lengths are enough for every image that is accepted: 8,192 places, two records for each. */
#define PIJORREL_PLACES_ENOUGH 131072
#define PIJORREL_RECORDS_ENOUGH 196608

/* ---- the translator ----
 *
 * What it answers: a number, and what is returned with it; second is 0 but for number 0. The first that applies, in
 * this order, but that 4 and 5 come in the order in which the walk over the places meets them. Only
 * pijorrel_write answers 7. */
enum {
    PIJORREL_ACCEPTED = 0,         /* first: the place count, second: the record count */
    PIJORREL_REFUSED_LENGTH = 1,   /* image length 0, above 16,384 or no multiple of 4 (the length) */
    PIJORREL_REFUSED_BASE = 2,     /* base no multiple of 4 (the base) */
    PIJORREL_REFUSED_ENTRY = 3,    /* 0 or over 64 entries (0), or an entry misaligned or outside the image (the
                                      position of the first such entry in the list, counted from 1) */
    PIJORREL_REFUSED_HELD = 4,     /* a held place, a jmpl's delay slot, has call, jmpl or any Bicc but bn without annul
                                      (its address) */
    PIJORREL_REFUSED_PLACES = 5,   /* no room for a place in the table, or more than 8,192 (its address) */
    PIJORREL_REFUSED_RECORDS = 6,  /* the record buffer is short (the records needed) */
    PIJORREL_REFUSED_FIELD = 7     /* a number does not fit its field (the bits of that field), or no word has the
                                      form (0) */
};

struct pijorrel_answer {
    uint32_t number;
    uint64_t first;
    uint64_t second;
};

/* Translates an image, from its entries, into a place table and records.
 *   image, image_length, base    big-endian words and their address
 *   entries, entries_length      four bytes for each address where runs begin; they become the first plain places
 *   places, places_length        written whole: the places counted, zeros past them; on a refusal zeros
 *   records, records_length      written whole: the records counted, zeros past them; on a refusal zeros
 * A tail too short for a whole entry, place or record is not counted. The new core is to be given just what is counted:
 * 16 * first bytes of places, 12 * second of records. */
struct pijorrel_answer pijorrel_translate(const uint8_t *image, size_t image_length, uint32_t base,
                                          const uint8_t *entries, size_t entries_length, uint8_t *places,
                                          size_t places_length, uint8_t *records, size_t records_length);

/* ---- the new core ----
 *
 * Its state: 167 numbers, registers 0 to 31 first. They are read and left as the old core's are. All bytes 0 are the
 * start values. */
#define PIJORREL_NEW_STATE 668

enum {
    PIJORREL_NEW_FLAGS = 32,
    PIJORREL_NEW_RECORD = 33,  /* the record number */
    PIJORREL_NEW_HELD = 34,    /* the held address */
    PIJORREL_NEW_END = 35,
    PIJORREL_NEW_NUMBER = 36,  /* beside the end */
    PIJORREL_NEW_Y = 37,
    PIJORREL_NEW_NESTING = 38,
    PIJORREL_NEW_WINDOWS = 39  /* to 166 */
};

/* Begins at the first record of the address's lowest-numbered plain place, with held address 0; keeps registers, flags,
 * Y, nesting and windows. With no such place the run ends at once: 2 outside the image, 6 inside, record number 0.
 * Answers how the run stands, as the state does.
 *   places, places_length        the table
 *   base, image_length           those of the image translated; the image itself is not needed */
struct pijorrel_end pijorrel_new_begin(const uint8_t *places, size_t places_length, uint32_t base,
                                       uint32_t image_length, uint32_t address, uint8_t state[PIJORREL_NEW_STATE]);

/* Does count records, or fewer where the run ends; answers how it stands, as the state does.
 *   records, records_length      the records
 *   places, places_length        the table, for kind 6
 *   base, image_length           those of the image translated, for kind 6
 *   data_base, data, data_length, count    as in pijorrel_old_run */
struct pijorrel_end pijorrel_new_run(const uint8_t *records, size_t records_length, const uint8_t *places,
                                     size_t places_length, uint32_t base, uint32_t image_length, uint32_t data_base,
                                     uint8_t state[PIJORREL_NEW_STATE], uint8_t *data, size_t data_length,
                                     uint16_t count);

/* ---- words ----
 *
 * The words that are known, with their forms; where there are two, the second is that of the word that sets flags too,
 * as addcc. Every other word is illegal.
 *
 *   call      64       add   128 144       umul   138 154       ld     192
 *   sethi      4       addx  136 152       smul   139 155       ldub   193
 *   Bicc       2       sub   132 148       sll    165           lduh   194
 *   jmpl     184       subx  140 156       srl    166           ldsb   201
 *   Ticc     186       and   129 145       sra    167           ldsh   202
 *   save     188       andn  133 149       rd %y  168           st     196
 *   restore  189       or    130 146       wr %y  176           stb    197
 *                      orn   134 150                            sth    198
 *                      xor   131 147
 *                      xnor  135 151
 *
 * Bicc are bn, be, ble, bl, bleu, bcs, bneg, bvs, ba, bne, bg, bge, bgu, bcc, bpos and bvc, each also with ,a; Ticc are
 * sixteen likewise. gcc makes words for V8 that are not among these, ldd, std, udiv and sdiv above all.
 *
 * An instruction is six numbers, 24 bytes, in the byte order of all numbers here.
 *   0  form: 64 * op + op3 for op 2 and 3, 64 for call, 2 for Bicc, 4 for sethi; 0 for a word that is not known
 *   1  annul: 0, any other number counts as 1
 *   2  rd, or the condition
 *   3  rs1
 *   4  0 where the second operand is a register; any other number counts as 1, a constant
 *   5  the second register's number, the constant, or the displacement in words; negative ones modulo 2^32
 * A number that the form does not have is 0 when read, and not looked at when written. Registers have 5 bits, a
 * condition 4; a constant 13 with its sign, a shift's 5, a Ticc's 7 and sethi's 22 without; a displacement 22 of Bicc
 * and 30 of call, with its sign. A word with an unused bit set is not known, here as to both cores and the translator:
 * bits 12 to 5 beside a register and above a shift's constant, bits 12 to 7 above a Ticc's, bit 29 of a Ticc.
 *
 * Products and Y. Of umul and smul the high 32 bits of the product go to Y, the low ones to rd, and umulcc and smulcc
 * set N and Z from the low ones and clear V and C. rd %y copies Y to rd and has no other number; a word with its op3
 * and any of bits 18 to 0 set is not known. wr %y writes rs1 xor the second operand to Y, where the next word finds it;
 * it has no rd, and with any of bits 29 to 25 set it is not known.
 *
 * Windows. save and restore add rs1 and the second operand as the old window has them and write the sum to rd of the
 * new one; they set no flags. */
#define PIJORREL_INSTRUCTION 24

/* 0 and the word; or PIJORREL_REFUSED_FIELD and the bits of the field that a number does not fit, of several the
 * highest in the word, and 0 for a form that no word has. */
struct pijorrel_written {
    uint32_t number;
    uint32_t value;
};

struct pijorrel_written pijorrel_write(const uint8_t instruction[PIJORREL_INSTRUCTION]);

/* Leaves the instruction that a word reads as, six zeros for one that is not known. Written again, it is that word; and
 * what was written is read with each number as it counts and 0 for those that the form does not have. */
void pijorrel_read(uint32_t word, uint8_t instruction[PIJORREL_INSTRUCTION]);

#ifdef __cplusplus
}
#endif

#endif
