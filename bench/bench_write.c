/* The writer's benchmark: the library's pijorrel_write beside a plain C writer. */
#include <stdbool.h>
#include <stdio.h>
#include <stdlib.h>
#include <string.h>

#include "instructions.h"
#include "main.h"
#include "pijorrel.h"
#include "timing.h"
#include "vectors.h"
#include "writer.h"

enum {
    ROUNDS = 50, /* short ones, so that some fall into quiet moments of the machine */
    WORDS_A_ROUND = 1000000
};

typedef struct pijorrel_written write_function(const uint8_t instruction[PIJORREL_INSTRUCTION]);

/* ---- the vectors */

static bool agrees(write_function *write, const uint8_t *six, const struct pijorrel_written *known)
{
    struct pijorrel_written w = write(six);
    return w.number == known->number && w.value == known->value;
}

/* A word and its six numbers, or six numbers of any instruction; then what writing them answers. */
static bool check_case(struct reader *reader, struct agreement *agreement)
{
    struct pijorrel_written known;
    const uint8_t *six;
    uint32_t mark = take_number(reader);
    if (mark == 0x574F5244)
        take_number(reader);
    else if (mark != 0x494E5354)
        return false;
    six = take_area(reader, PIJORREL_INSTRUCTION);
    known.number = take_number(reader);
    known.value = take_number(reader);
    if (reader->short_of)
        return false;
    agreement->library += agrees(pijorrel_write, six, &known);
    agreement->rival += agrees(rival_write, six, &known);
    return true;
}

int check(const char *path)
{
    return check_file(path, "writer", check_case);
}

/* ---- the measurement */

static void round_of(write_function *write, const struct list *list, double *best)
{
    double start = seconds();
    for (int i = 0, at = 0; i < WORDS_A_ROUND; i++) {
        write(list->instructions[at]);
        at = at + 1 < LIST_LENGTH ? at + 1 : 0;
    }
    keep_best(best, start);
}

/* Whether both sides answer the same of each instruction, and refuse as many as they should. */
static bool both_right(const struct list *list)
{
    uint32_t refused = 0;
    for (int i = 0; i < LIST_LENGTH; i++) {
        struct pijorrel_written w = pijorrel_write(list->instructions[i]);
        if (!agrees(rival_write, list->instructions[i], &w))
            return false;
        refused += w.number != 0;
    }
    return refused == list->refused;
}

static bool measure(const struct list *list, int rounds)
{
    double library_best = 1e9, rival_best = 1e9;
    /* where instructions are counted, in one round, no other word may come between */
    if (rounds > 1 && !both_right(list)) {
        printf("%s: the two sides differ, or refuse what they should not\n", list->name);
        return false;
    }
    for (int i = 0; i < rounds; i++) {
        round_of(pijorrel_write, list, &library_best);
        round_of(rival_write, list, &rival_best);
    }
    print_row(list->name, library_best * 1e9 / WORDS_A_ROUND, rival_best * 1e9 / WORDS_A_ROUND);
    return true;
}

int benchmark(void)
{
    static struct list list;
    bool good = true;
    printf("writer, nanoseconds a word: the best of %d rounds of %d words on each side, in turn\n",
           ROUNDS, WORDS_A_ROUND);
    print_heading("list");
    for (int i = 0; i < LISTS; i++) {
        make_list(&list, i);
        good = measure(&list, ROUNDS) && good;
    }
    return good ? EXIT_SUCCESS : EXIT_FAILURE;
}

int one_round(const char *name)
{
    static struct list list;
    for (int i = 0; i < LISTS; i++) {
        make_list(&list, i);
        if (strcmp(list.name, name) == 0)
            return measure(&list, 1) ? EXIT_SUCCESS : EXIT_FAILURE;
    }
    fprintf(stderr, "no list %s\n", name);
    return 2;
}
