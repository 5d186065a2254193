/* The writer's rival: document 02's writer in plain C, to measure the library against. */
#ifndef RIVAL_WRITER_H
#define RIVAL_WRITER_H

#include "pijorrel.h"

/* Answers what pijorrel_write does. */
struct pijorrel_written rival_write(const uint8_t instruction[PIJORREL_INSTRUCTION]);

#endif
