#include "stored.h"

#include <string.h>

#include "../../bench/numbers.h"
#include "../stored.h"

enum { MARK = 0x494D4147, NUMBERS = 17, NAME = 16 };

const char level_names[LEVELS][3] = { "O0", "O1", "O2", "O3", "Os" };

static void take_numbers(const uint8_t *head, struct stored *image)
{
    size_t n[NUMBERS];
    for (int k = 0; k < NUMBERS; k++)
        n[k] = word_at(head + 4 * k);
    image->program = (uint32_t)n[1];
    image->level = (uint32_t)n[2];
    image->image_length = n[3];
    image->base = (uint32_t)n[4];
    image->entries_length = n[5];
    image->area_length = n[6];
    image->given_length = n[7];
    image->results_at = n[8];
    image->result_count = n[9];
    image->run_count = n[10];
    image->entry_count = n[11];
    image->pairs = n[12];
    image->windows = n[13] != 0;
    image->end = (uint32_t)n[14];
    image->hole = n[15];
    image->hole_length = n[16];
}

/* Whether what the numbers speak of lies in the area, so that nothing after this needs to ask. */
static bool sound(const struct stored *image)
{
    size_t length = image->area_length;
    return image->program < MOST_PROGRAMS && image->level < LEVELS && length <= LONGEST_AREA
        && image->image_length > 0 && image->image_length <= length && image->entries_length >= 4
        && image->given_length <= length - image->image_length && image->results_at <= length
        && 4 * image->result_count <= length - image->results_at && image->entry_count > 0
        && image->hole <= length - image->image_length
        && image->hole_length <= length - image->image_length - image->hole;
}

bool take_image(const uint8_t **at, const uint8_t *end, struct stored *image)
{
    const uint8_t *head = take(at, end, 4 * NUMBERS), *name = take(at, end, NAME), *digest;
    if (!name || word_at(head) != MARK)
        return false;
    take_numbers(head, image);
    if (!sound(image))
        return false;
    memcpy(image->name, name, NAME);
    image->name[NAME] = 0;
    image->image = take(at, end, image->image_length);
    image->entries = take(at, end, image->entries_length);
    image->given = take(at, end, image->given_length);
    image->results = take(at, end, 4 * image->result_count);
    image->path = take(at, end, 4 * image->run_count);
    image->last = take(at, end, REGISTERS_AND_FLAGS);
    image->last_y = take(at, end, 4);
    image->last_nesting = take(at, end, 4);
    digest = take(at, end, 8);
    image->after = take(at, end, image->hole);
    image->after_hole = take(at, end, image->area_length - image->image_length - image->hole - image->hole_length);
    if (!image->after_hole)
        return false;
    image->digest = (uint64_t)word_at(digest) << 32 | word_at(digest + 4);
    return true;
}
