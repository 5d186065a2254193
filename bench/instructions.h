/* Instructions to measure the writer on, six numbers each, made by rule; so many that the processor does not learn
 * which form comes next, and no more than its nearer memory holds. */
#ifndef INSTRUCTIONS_H
#define INSTRUCTIONS_H

#include <stdint.h>

#include "pijorrel.h"

enum { LISTS = 3, LIST_LENGTH = 20000 };

struct list {
    const char *name;
    uint8_t instructions[LIST_LENGTH][PIJORREL_INSTRUCTION];
    uint32_t refused; /* how many have no word */
};

/* By number: arithmetic alone, all forms, and all forms with about half of them refused. */
void make_list(struct list *list, int number);

#endif
