/* The translator's rival: document 01's translator in plain C, to measure the library against. */
#ifndef RIVAL_TRANSLATOR_H
#define RIVAL_TRANSLATOR_H

#include "pijorrel.h"

/* Answers and leaves in both buffers what pijorrel_translate does. */
struct pijorrel_answer rival_translate(const uint8_t *image, size_t image_length, uint32_t base,
                                       const uint8_t *entries, size_t entries_length, uint8_t *places,
                                       size_t places_length, uint8_t *records, size_t records_length);

#endif
