/* Trails of both cores, read off the bytes that calls of count 1 leave, and demand 3's comparison of two of them. */
#ifndef TRAILS_H
#define TRAILS_H

#include "../../examples/entries.h"

enum { DATA_ROOM = 64, LONGEST_CUT = 40 };

/* What both cores begin with; of the data only the first bytes, so many as the length says, are lent. */
struct start {
    uint32_t address, data_base;
    size_t data_length;
    uint8_t machine[REGISTERS_AND_FLAGS], windows[Y_AND_WINDOWS], data[DATA_ROOM];
};

struct entry {
    uint32_t address;
    uint8_t machine[REGISTERS_AND_FLAGS], windows[Y_AND_WINDOWS], data[DATA_ROOM];
};

struct trail {
    struct entry entries[LONGEST_CUT];
    int count;
    bool striding; /* from each entry to the next one or two steps, and no more than two to the close */
    bool landed;   /* the last entry is that of a landing without a place */
    uint32_t end, number;
};

typedef void begin_function(struct walk *walk, uint32_t address);

/* The trail of the core that begin_old or begin_new begins, cut at 1 to 40 entries. */
void trail_of(begin_function *begin, const struct program *program, const struct start *start, int cut,
              struct trail *trail);

/* What demand 3 says of these two trails and does not hold, or NULL. */
const char *difference(const struct program *program, const struct start *start, const struct trail *old,
                       const struct trail *new);

#endif
