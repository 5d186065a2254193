/* Files of cases with known answers: reading them, and counting the cases in which each side agrees. */
#ifndef VECTORS_H
#define VECTORS_H

#include <stdbool.h>
#include <stddef.h>
#include <stdint.h>

/* A file being read: numbers of four bytes, areas padded to a multiple of four. */
struct reader {
    const uint8_t *bytes;
    size_t length;
    size_t at;
    bool short_of; /* something was read past the end */
};

uint32_t take_number(struct reader *reader);
const uint8_t *take_area(struct reader *reader, size_t length);

/* The cases in which each side agrees. */
struct agreement {
    uint32_t library, rival;
};

/* Takes a case from the file and tries both sides on it; false if the file is damaged. */
typedef bool case_function(struct reader *reader, struct agreement *agreement);

/* Holds both sides to all cases of a file; an exit status. */
int check_file(const char *path, const char *name, case_function *one);

#endif
