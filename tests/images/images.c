/* Images that Debian's gcc compiled for SPARC V8, flat and with register windows, stored with what QEMU recorded of
 * them: each is translated and run by both cores to its trap or to the save that is one too many, by steps of count 1,
 * and the trails that the bytes show are held to each other at every entry, all windows included, and to QEMU's, of
 * which the current window is recorded; then once more with larger counts. With something spoiled it shows that it can
 * fail; without unimps behind calls it shows that those were needed. Leaves with 0 if all is equal, 1 if something
 * differs (where all are spoiled: in all images), 2 if the file is not whole or has too little. */
#include <stdio.h>
#include <string.h>

#include "../../bench/numbers.h"
#include "../stored.h"
#include "runs.h"
#include "stored.h"

enum { LEAST_PROGRAMS = 6, LEAST_WITH_UNIMPS = 3, LEAST_WITH_PRODUCTS = 3, LEAST_WITH_SAVES = 10 };
enum { TRAP_TAKEN = 1, TOO_MANY_SAVES = 8 };

/* What --spoil changes: a record that the run comes to, or one of QEMU's numbers. The last is no spoiling: every unimp
 * behind a call. */
enum spoiled { NOTHING, RECORD, PATH, DIGEST, REGISTER, Y, NESTING, DATA, RESULT, SPOILS, UNIMPS };

static const char *const spoil_names[SPOILS] = { "nothing", "record", "path", "digest", "register", "y", "nesting",
                                                 "data", "result" };

/* What was seen of programs at levels; flat images and those with windows count apart, by the first index. */
typedef bool each[MOST_PROGRAMS][LEVELS];

static struct {
    unsigned long images, words, pairs, differ, unimps, with_windows, too_many;
    struct counts runs;
    each there[2], multiplies[2], saves; /* the last: with a save on the way to the trap */
} seen;

/* One bit of what is recorded, in the file's bytes. */
static void spoil_recorded(const struct stored *image, enum spoiled spoiled, uint8_t *bytes)
{
    const uint8_t *const at[UNIMPS + 1] = { [PATH] = image->path + 4 * (image->run_count / 2) + 1,
                                        [DIGEST] = image->last_nesting + 4,
                                        [REGISTER] = image->last + 4 * 17 + 3,
                                        [Y] = image->last_y,
                                        [NESTING] = image->last_nesting + 3,
                                        [DATA] = image->hole > 0 ? image->after : image->after_hole,
                                        [RESULT] = image->results + 3 };
    if (at[spoiled])
        bytes[at[spoiled] - bytes] ^= 1;
}

static void count_image(const struct stored *image, bool multiplies, bool saves)
{
    bool whole = image->end == TRAP_TAKEN;
    seen.images++;
    seen.words += image->image_length / 4;
    seen.pairs += image->pairs;
    seen.with_windows += image->windows;
    seen.too_many += image->end == TOO_MANY_SAVES;
    seen.there[image->windows][image->program][image->level] = true;
    seen.multiplies[image->windows][image->program][image->level] = whole && multiplies;
    if (image->windows)
        seen.saves[image->program][image->level] = whole && saves;
}

/* Images without a call that returns a record are passed over where those are asked for, as are those without results
 * where a result is to be spoiled. */
static void check(const struct stored *image, enum spoiled spoiled)
{
    unsigned long unimps = seen.unimps, products = seen.runs.products, saves = seen.runs.saves;
    const char *what;
    if (spoiled == RESULT && image->result_count == 0)
        return;
    what = spoiled == UNIMPS ? check_without_unimps(image, &seen.unimps)
                             : check_image(image, spoiled == RECORD, &seen.runs);
    if (spoiled == UNIMPS && seen.unimps == unimps)
        return;
    count_image(image, seen.runs.products > products, seen.runs.saves > saves);
    if (what && seen.differ++ == 0)
        printf("images: %s at %s, %s: %s\n", image->name, level_names[image->level],
               image->windows ? "with windows" : "flat", what);
}

/* All images; false if the file is damaged. An image is taken once to be spoiled and once to be checked. */
static bool check_file(uint8_t *bytes, size_t length, enum spoiled spoiled)
{
    const uint8_t *at = bytes + 4, *end = bytes + length, *from;
    uint32_t count = length < 4 ? 0 : word_at(bytes);
    struct stored image;
    for (uint32_t k = 0; k < count; k++) {
        from = at;
        if (!take_image(&at, end, &image))
            return false;
        spoil_recorded(&image, spoiled, bytes);
        at = from;
        if (!take_image(&at, end, &image))
            return false;
        check(&image, spoiled);
    }
    return count > 0 && at == end;
}

/* The programs of which something is so at all levels. */
static int at_all_levels(each so)
{
    int programs = 0;
    for (int p = 0; p < MOST_PROGRAMS; p++) {
        int levels = 0;
        for (int level = 0; level < LEVELS; level++)
            levels += so[p][level];
        programs += levels == LEVELS;
    }
    return programs;
}

/* Those of which it is so at all levels both flat and with windows. */
static int in_both(each so[2])
{
    each both;
    for (int p = 0; p < MOST_PROGRAMS; p++)
        for (int level = 0; level < LEVELS; level++)
            both[p][level] = so[0][p][level] && so[1][p][level];
    return at_all_levels(both);
}

/* Enough programs; of those that multiply, with Y read and written too; of those that save and come to their trap; and
 * one that saves too often. */
static bool enough(void)
{
    return in_both(seen.there) >= LEAST_PROGRAMS && in_both(seen.multiplies) >= LEAST_WITH_PRODUCTS
        && seen.runs.reads > 0 && seen.runs.writes > 0 && at_all_levels(seen.saves) >= LEAST_WITH_SAVES
        && seen.runs.restores > 0 && seen.too_many > 0;
}

static enum spoiled spoil_asked(int count, char **words)
{
    if (count == 2)
        return NOTHING;
    if (count == 3 && strcmp(words[1], "--without-unimps") == 0)
        return UNIMPS;
    for (int k = 1; count == 4 && strcmp(words[1], "--spoil") == 0 && k < SPOILS; k++)
        if (strcmp(words[2], spoil_names[k]) == 0)
            return (enum spoiled)k;
    return SPOILS;
}

static void print_seen(void)
{
    const struct counts *runs = &seen.runs;
    printf("images: %lu images, %d programs at all levels, %lu words, %lu pairs split, %lu places, %lu records\n",
           seen.images, in_both(seen.there), seen.words, seen.pairs, runs->places, runs->records);
    printf("images: %lu entries compared (%lu words passed, %lu records done), %lu images differ\n", runs->entries,
           runs->old_steps, runs->new_steps, seen.differ);
    printf("images: %d programs multiply at all levels; products %lu, rdy %lu, wry %lu\n",
           in_both(seen.multiplies), runs->products, runs->reads, runs->writes);
    printf("images: %lu images with windows, %lu of them end with 8; %d programs save at all levels and end with 1; "
           "save %lu, restore %lu\n",
           seen.with_windows, seen.too_many, at_all_levels(seen.saves), runs->saves, runs->restores);
}

/* Each must have ended with 6, and there must be enough of them. */
static int print_without_unimps(void)
{
    printf("images: without the %lu unimps behind calls, %lu of %lu images of %d programs end with 6 where one returns\n",
           seen.unimps, seen.images - seen.differ, seen.images, in_both(seen.there));
    if (seen.differ > 0)
        return 1;
    return in_both(seen.there) >= LEAST_WITH_UNIMPS ? 0 : 2;
}

int main(int count, char **words)
{
    static uint8_t bytes[LARGEST_FILE];
    enum spoiled spoiled = spoil_asked(count, words);
    if (spoiled == SPOILS) {
        fprintf(stderr,
                "usage: images [--spoil record|path|digest|register|y|nesting|data|result | --without-unimps] FILE\n");
        return 2;
    }
    if (!check_file(bytes, read_file(words[count - 1], bytes), spoiled)) {
        fprintf(stderr, "%s is not a whole file of images\n", words[count - 1]);
        return 2;
    }
    if (spoiled == UNIMPS)
        return print_without_unimps();
    if (spoiled)
        printf("images: of %lu images with one bit of the %s spoiled, %lu show it\n", seen.images, spoil_names[spoiled],
               seen.differ);
    else
        print_seen();
    if (seen.differ > 0)
        return spoiled && seen.differ < seen.images ? 2 : 1;
    return enough() ? 0 : 2;
}
