#include "whole.h"

#include <stdio.h>
#include <sys/stat.h>

#include "fields.h"
#include "numbers.h"
#include "words.h"

/* ---- the words */

enum { STACK = 14, COUNTER = 24, RESULTS = 25 }; /* registers; no loop uses the last two in the first window */

enum { SYSTEM_TRAP = 0x10, CALL_EXIT = 1, CALL_WRITE = 4, STANDARD_OUTPUT = 1 };

static void add(struct whole *w, uint32_t word)
{
    put_word(w->image + w->length, word);
    w->length += 4;
}

static void set(struct whole *w, uint32_t rd, int constant)
{
    add(w, compute_constant(OP3_OR, rd, 0, constant));
}

static void idle(struct whole *w, int words)
{
    for (int i = 0; i < words; i++)
        add(w, sethi(0, 0));
}

/* The loop as it is, but that the branch which closes a turn goes to its end, where turns are counted. */
static void add_loop(struct whole *w, const struct loop *loop, int turns)
{
    int words = (int)(loop->length / 4), closing = (int)loop->closing;
    uint32_t back = word_at(loop->image + 4 * loop->closing);
    int head = closing + (int32_t)disp22(back) / 4;
    set(w, COUNTER, turns);
    for (int i = 0; i < words; i++)
        add(w, i == closing ? branch(COND_ALWAYS, annul_bit(back), words - i) : word_at(loop->image + 4 * i));
    add(w, compute_constant(OP3_SUB | OP3_CC, COUNTER, COUNTER, 1));
    add(w, branch(COND_NE, false, head - (words + 1)));
    idle(w, 1);
}

/* Puts all registers behind the data. */
static void add_results(struct whole *w)
{
    add(w, sethi(RESULTS, DATA_BASE + DATA_LENGTH));
    for (int i = 0; i < 32; i++)
        add(w, access_constant(OP3_ST, (uint32_t)i, RESULTS, 4 * i));
}

/* A system call's number is in register 1, what it is given in 8 to 10. The cores end at the first trap; QEMU takes it
 * as the call that writes out the data, and the second one as the call that leaves. */
static void add_end(struct whole *w)
{
    set(w, 8, STANDARD_OUTPUT);
    add(w, sethi(9, DATA_BASE));
    add(w, sethi(10, WHOLE_DATA));
    add(w, compute_constant(OP3_OR, 10, 10, WHOLE_DATA % 1024));
    set(w, 1, CALL_WRITE);
    add(w, compute_constant(OP3_TICC, COND_ALWAYS, 0, SYSTEM_TRAP));
    set(w, 8, 0);
    set(w, 1, CALL_EXIT);
    add(w, compute_constant(OP3_TICC, COND_ALWAYS, 0, SYSTEM_TRAP));
}

/* QEMU takes the first window's ins and locals to be on the stack and loads them at the first restore to it. That comes
 * here, where register 14 still has the stack's address and 0 lies there; then it is 0 as on the cores. */
static void settle(struct whole *w)
{
    add(w, compute(OP3_SAVE, 0, 0, 0));
    add(w, compute(OP3_RESTORE, 0, 0, 0));
    set(w, STACK, 0);
}

struct whole whole_at(int number)
{
    /* As many turns as fit into the steps, and for those left over words that do nothing. */
    static const int turns[WHOLE_PROGRAMS] = { 642, 4093, 3194, 3118, 2112, 1 };
    static const int left[WHOLE_PROGRAMS] = { 8, 3, 14, 10, 19, 0 };
    struct loop loop = loop_at(number);
    struct whole w = { .name = loop.name };
    settle(&w);
    add_loop(&w, &loop, turns[number]);
    idle(&w, left[number]);
    add_results(&w);
    add_end(&w);
    first_data(w.data);
    return w;
}

/* ---- the file: a page of headers, one with the words, and the data */

enum { PAGE = 4096, LENGTH_AT = 4 * 17 };

struct file {
    uint8_t headers[PAGE], text[WHOLE_IMAGE], data[WHOLE_DATA];
};

static void put_headers(uint8_t *headers, uint32_t length)
{
    const uint32_t words[] = {
        0x7F454C46, 0x01020100, 0, 0,        /* ELF, of 32 bits, big-endian */
        2 << 16 | 2, 1, LOOP_BASE, 52, 0, 0, /* an executable for SPARC, its entry, where the program headers stand */
        52 << 16 | 32, 2 << 16, 0,           /* the bytes of this header and of a program header; two of those: */
        1, PAGE, LOOP_BASE, LOOP_BASE, length, length, 5, PAGE,             /* the words, to be read and executed */
        1, 2 * PAGE, DATA_BASE, DATA_BASE, WHOLE_DATA, WHOLE_DATA, 6, PAGE, /* the data, to be read and written */
    };
    for (size_t i = 0; i < sizeof words / sizeof words[0]; i++)
        put_word(headers + 4 * i, words[i]);
}

bool write_whole(const struct whole *whole, const char *path)
{
    struct file bytes = { .headers = { 0 } };
    FILE *file = fopen(path, "wb");
    put_headers(bytes.headers, (uint32_t)whole->length);
    memcpy(bytes.text, whole->image, sizeof bytes.text);
    memcpy(bytes.data, whole->data, sizeof bytes.data);
    return file && fwrite(&bytes, sizeof bytes, 1, file) == 1 && fclose(file) == 0
        && chmod(path, 0755) == 0; /* QEMU asks for an executable */
}

bool read_whole(struct whole *whole, const char *path)
{
    static struct file bytes;
    FILE *file = fopen(path, "rb");
    if (!file || fread(&bytes, sizeof bytes, 1, file) != 1)
        return false;
    fclose(file);
    *whole = (struct whole){ .name = path, .length = word_at(bytes.headers + LENGTH_AT) };
    memcpy(whole->image, bytes.text, sizeof bytes.text);
    memcpy(whole->data, bytes.data, sizeof bytes.data);
    return whole->length <= WHOLE_IMAGE;
}
