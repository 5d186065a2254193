/* The loops as whole programs, which end, and each program's file: QEMU takes it as an executable, the other sides
 * read it too. */
#ifndef WHOLE_H
#define WHOLE_H

#include <stdbool.h>

#include "loops.h"

enum {
    WHOLE_PROGRAMS = LOOPS + 1, /* the last one has the empty loop, to see what start-up alone takes */
    WHOLE_STEPS = 65535,        /* the words that the others pass on the old core: annulled ones and the trap too */
    WHOLE_IMAGE = 4096,         /* room for the words */
    WHOLE_DATA = DATA_LENGTH + 4 * 32 /* the loop's data, and behind it the registers */
};

struct whole {
    const char *name;
    size_t length;
    uint8_t image[WHOLE_IMAGE];
    uint8_t data[WHOLE_DATA];
};

struct whole whole_at(int number);

bool write_whole(const struct whole *whole, const char *path);
bool read_whole(struct whole *whole, const char *path);

#endif
