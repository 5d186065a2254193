/* The sides that are compared with QEMU: each runs a program to its end. */
#ifndef SIDES_H
#define SIDES_H

#include "pijorrel.h"
#include "whole.h"

struct outcome {
    struct pijorrel_end end; /* still 0 if the program was refused */
    uint32_t calls;
};

/* By calls of so many steps; the program's data is left as the run left it. */
typedef struct outcome side_function(struct whole *whole, uint16_t count);

side_function run_old;   /* the library's old core */
side_function run_new;   /* the library's translator, and its new core */
side_function run_rival; /* the plain C interpreter of the old core's words */

#endif
