/* How much stack each call takes, on x86-64: a thread with a painted stack makes the call, and the paint that is left is
 * counted. A state is its caller's, and not counted. The header states the bounds that are asked here. To be linked with -z now, so that memset is bound before a
 * thread begins: else the dynamic linker does it at the first call, on the stack that is measured. */
#define _POSIX_C_SOURCE 200809L
#include <pthread.h>
#include <stdio.h>
#include <stdlib.h>
#include <string.h>
#include "pijorrel.h"

enum { STACK = 1 << 20, PAINT = 0xAB, IMAGE = 16384 };

static uint8_t image[IMAGE], entry[4], places[16 * 8192], records[12 * 16384], data[65536];

static void *nothing(void *argument)
{
    return argument;
}

static void *translate(void *argument)
{
    *(struct pijorrel_answer *)argument =
        pijorrel_translate(image, sizeof image, 0, entry, sizeof entry, places, sizeof places, records, sizeof records);
    return argument;
}

static void *run_old(void *argument)
{
    static uint8_t state[PIJORREL_OLD_STATE];
    pijorrel_old_begin(0, state);
    pijorrel_old_run(image, sizeof image, 0, 0, state, data, sizeof data, 65535);
    return argument;
}

static void *run_new(void *argument)
{
    static uint8_t state[PIJORREL_NEW_STATE];
    pijorrel_new_begin(places, sizeof places, 0, IMAGE, 0, state);
    pijorrel_new_run(records, sizeof records, places, sizeof places, 0, IMAGE, 0, state, data, sizeof data, 65535);
    return argument;
}

/* Each form with all other numbers 0, and the word that comes of it. */
static void *read_and_write(void *argument)
{
    for (int form = 0; form < 256; form++) {
        uint8_t instruction[PIJORREL_INSTRUCTION] = { 0, 0, 0, (uint8_t)form };
        pijorrel_read(pijorrel_write(instruction).value, instruction);
    }
    return argument;
}

static size_t stack_of(void *(*work)(void *), void *argument)
{
    static uint8_t stack[STACK] __attribute__((aligned(4096)));
    pthread_attr_t attributes;
    pthread_t thread;
    size_t left = 0;

    memset(stack, PAINT, sizeof stack);
    if (pthread_attr_init(&attributes) || pthread_attr_setstack(&attributes, stack, sizeof stack)
        || pthread_create(&thread, &attributes, work, argument) || pthread_join(thread, NULL)) {
        fprintf(stderr, "no thread\n");
        exit(2);
    }
    while (left < sizeof stack && stack[left] == PAINT)
        left++;
    return sizeof stack - left;
}

/* Conditional branches throughout, so that the walk has thousands of places to find; every eighth word is in turn a
 * product, umulcc %g1, %g1, %g2, a save %o6, -96, %o6 and a restore. */
static void make_image(void)
{
    static const uint8_t others[3][4] = { { 0x84, 0xD0, 0x40, 0x01 }, { 0x9D, 0xE3, 0xBF, 0xA0 }, { 0x81, 0xE8 } };
    for (size_t i = 0; i < sizeof image; i += 4) {
        image[i] = 0x12;
        image[i + 1] = 0x80;
        image[i + 3] = 2;
        if (i % 32 == 28)
            memcpy(image + i, others[i / 32 % 3], sizeof *others);
    }
}

int main(void)
{
    static const struct { const char *name; void *(*work)(void *); size_t bound; } calls[] = {
        { "translate", translate, 34 * 1024 }, { "old core", run_old, 1024 }, { "new core", run_new, 1024 },
        { "reader and writer", read_and_write, 1024 }
    };
    struct pijorrel_answer answer = { 9, 0, 0 };
    int failed = 0;

    make_image();
    size_t thread = stack_of(nothing, &answer);
    for (size_t i = 0; i < sizeof calls / sizeof calls[0]; i++) {
        size_t bytes = stack_of(calls[i].work, &answer) - thread;
        printf("stack: %s %zu bytes, bound %zu\n", calls[i].name, bytes, calls[i].bound);
        failed |= bytes >= calls[i].bound;
    }
    return failed || answer.number == 9;
}
