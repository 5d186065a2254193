/* The stored images, with what QEMU recorded of them; make_images describes the file. */
#ifndef STORED_H
#define STORED_H

#include <stdbool.h>
#include <stddef.h>
#include <stdint.h>

enum { REGISTERS_AND_FLAGS = 132, LEVELS = 5, MOST_PROGRAMS = 32, LONGEST_AREA = 65536 };

struct stored {
    char name[17];
    uint32_t program, level, base, end;
    bool windows; /* compiled to use them */
    const uint8_t *image, *entries, *given, *results, *path, *last, *last_y, *last_nesting, *after, *after_hole;
    size_t image_length, entries_length, area_length, given_length, results_at, result_count, run_count, pairs;
    size_t hole, hole_length; /* zeros between what stands at after and at after_hole */
    uint64_t entry_count, digest;
};

/* How gcc's option for the level ends. */
extern const char level_names[LEVELS][3];

/* The next image at a position that moves on; false where the bytes are not those of a whole image. */
bool take_image(const uint8_t **at, const uint8_t *end, struct stored *image);

#endif
