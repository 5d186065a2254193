#include "runs.h"

#include <string.h>

#include "../../bench/numbers.h"
#include "pijorrel.h"

enum { PLACES = 8192, RECORDS = 2 * PLACES, MOST_STEPS = 1 << 20, NO_GROUP = -1 };
enum { UNPLACED = 6, TOO_MANY_SAVES = 8, MOST_NESTING = 6 };
enum { PC = 33, ANNUL = 35, OLD_END = 36, OLD_Y = 38, NESTING = 39, RECORD_NUMBER = 33, NEW_END = 35, NEW_Y = 37 };
enum { BEHIND_END = PIJORREL_OLD_STATE - 4 * OLD_Y }; /* Y, the nesting and the windows, which close both states */
enum { OP2_BIT = 1 << 22, NOP = 0x01000000, JMPL = 0x38, SAVE = 0x3C, RESTORE = 0x3D };

/* A run of one core; a state has room for either. */
struct run {
    uint8_t state[PIJORREL_OLD_STATE], data[LONGEST_AREA];
    uint8_t last[PIJORREL_OLD_STATE]; /* the state at the last entry that was gone on from */
    struct pijorrel_end end;
    unsigned long steps; /* calls */
};

static uint8_t places[16 * PLACES], records[12 * RECORDS];
static size_t place_count, record_count;
static int32_t group_of[RECORDS]; /* the place whose first record this is */
static struct run old, new, far_old, far_new;

/* ---- translation and begin */

static bool translated(const struct stored *image)
{
    struct pijorrel_answer answer = pijorrel_translate(image->image, image->image_length, image->base, image->entries,
                                                       image->entries_length, places, sizeof places, records,
                                                       sizeof records);
    if (answer.number != 0)
        return false;
    place_count = answer.first;
    record_count = answer.second;
    for (size_t k = 0; k < RECORDS; k++)
        group_of[k] = NO_GROUP;
    for (size_t k = place_count; k-- > 0;) /* the lowest place wins */
        if (word_at(places + 16 * k + 12) < RECORDS)
            group_of[word_at(places + 16 * k + 12)] = (int32_t)k;
    return true;
}

/* The area begins with the image, since tables may stand in it. */
static void begin(const struct stored *image, struct run *run)
{
    memset(run, 0, sizeof *run);
    memcpy(run->data, image->image, image->image_length);
    memcpy(run->data + image->image_length, image->given, image->given_length);
}

static void begin_old(const struct stored *image, struct run *run)
{
    begin(image, run);
    pijorrel_old_begin(word_at(image->entries), run->state);
}

static void begin_new(const struct stored *image, struct run *run)
{
    begin(image, run);
    run->end = pijorrel_new_begin(places, 16 * place_count, image->base, (uint32_t)image->image_length,
                                  word_at(image->entries), run->state);
}

static void run_old(const struct stored *image, struct run *run, uint16_t count)
{
    run->steps++;
    run->end = pijorrel_old_run(image->image, image->image_length, image->base, image->base, run->state, run->data,
                                image->area_length, count);
}

static void run_new(const struct stored *image, struct run *run, uint16_t count)
{
    run->steps++;
    run->end = pijorrel_new_run(records, 12 * record_count, places, 16 * place_count, image->base,
                                (uint32_t)image->image_length, image->base, run->state, run->data, image->area_length,
                                count);
}

/* ---- from entry to entry */

static uint32_t number_in(const struct run *run, int position)
{
    return word_at(run->state + 4 * position);
}

static int32_t place_at(const struct run *run)
{
    uint32_t record = number_in(run, RECORD_NUMBER);
    return record < record_count ? group_of[record] : NO_GROUP;
}

static void to_next_old(const struct stored *image)
{
    memcpy(old.last, old.state, sizeof old.last);
    do
        run_old(image, &old, 1);
    while (old.end.end == 0 && number_in(&old, ANNUL) != 0 && old.steps < MOST_STEPS);
}

static void to_next_new(const struct stored *image)
{
    memcpy(new.last, new.state, sizeof new.last);
    do
        run_new(image, &new, 1);
    while (new.end.end == 0 && place_at(&new) == NO_GROUP && new.steps < MOST_STEPS);
}

/* Registers, flags, Y, nesting, all windows and the data. */
static bool same_machine(const struct stored *image)
{
    return memcmp(old.state, new.state, REGISTERS_AND_FLAGS) == 0
        && memcmp(old.state + 4 * OLD_Y, new.state + 4 * NEW_Y, BEHIND_END) == 0
        && memcmp(old.data, new.data, image->area_length) == 0;
}

/* Whether the step after the last entry changed nothing but the two numbers of the end. */
static bool changed_nothing(const struct run *run, int end, size_t length)
{
    size_t behind = 4 * (size_t)end + 8;
    return memcmp(run->state, run->last, 4 * (size_t)end) == 0
        && memcmp(run->state + behind, run->last + behind, length - behind) == 0;
}

/* Whether both cores stand at one and the same entry; after too many steps they do not. */
static bool same_entry(const struct stored *image)
{
    int32_t place = place_at(&new);
    return place != NO_GROUP && word_at(places + 16 * (size_t)place) == number_in(&old, PC)
        && number_in(&old, ANNUL) == 0 && same_machine(image);
}

/* ---- QEMU's trail */

struct path {
    size_t run;      /* of the path, counted from 0 */
    uint32_t within; /* words of it that are passed */
    uint64_t entries, digest;
    unsigned long products, reads, writes; /* words that multiply, read Y and write it alone */
    unsigned long saves, restores;
};

/* Whether an entry is the path's next one. */
static bool on_path(const struct stored *image, struct path *path, uint32_t address)
{
    const uint8_t *run = image->path + 4 * path->run;
    if (path->run == image->run_count || address != image->base + 4 * (half_at(run) + path->within))
        return false;
    path->within++;
    if (path->within == half_at(run + 2)) {
        path->run++;
        path->within = 0;
    }
    return true;
}

/* FNV-1a over whole numbers. */
static void mix(struct path *path, uint32_t number)
{
    path->digest = (path->digest ^ number) * 0x100000001B3u;
}

/* The old core's entry. */
static void mix_entry(struct path *path)
{
    path->entries++;
    mix(path, number_in(&old, PC));
    for (int k = 0; k < REGISTERS_AND_FLAGS / 4; k++)
        mix(path, number_in(&old, k));
    mix(path, number_in(&old, OLD_Y));
    mix(path, number_in(&old, NESTING));
}

/* Counts the word that an entry stands at, if it is one with Y or a window. */
static void count_word(const struct stored *image, struct path *path)
{
    uint32_t at = number_in(&old, PC) - image->base, word, op3;
    if ((uint64_t)at + 4 > image->image_length)
        return;
    word = word_at(image->image + at);
    op3 = word >> 30 == 2 ? word >> 19 & 63 : 0;
    path->products += (op3 & 0x2E) == 0x0A; /* signed or not, with flags or without */
    path->reads += op3 == 0x28;
    path->writes += op3 == 0x30;
    path->saves += op3 == SAVE;
    path->restores += op3 == RESTORE;
}

/* ---- whole runs */

/* Both cores from entry to entry, until one ends. */
static const char *differ_on_the_way(const struct stored *image, struct path *path)
{
    while (old.end.end == 0 && new.end.end == 0) {
        if (!same_entry(image))
            return "the cores' entries differ";
        if (!on_path(image, path, number_in(&old, PC)))
            return "another path than QEMU's";
        mix_entry(path);
        count_word(image, path);
        to_next_old(image);
        to_next_new(image);
    }
    return NULL;
}

/* Both have met the recorded end, a trap or a save too many, at the last entry, and left all as it was there. */
static const char *differ_at_end(const struct stored *image)
{
    if (old.end.end != image->end || new.end.end != image->end)
        return "another end";
    if (old.end.number != new.end.number || (image->end == TOO_MANY_SAVES && old.end.number != MOST_NESTING))
        return "another number beside the end";
    if (!changed_nothing(&old, OLD_END, PIJORREL_OLD_STATE) || !changed_nothing(&new, NEW_END, PIJORREL_NEW_STATE))
        return "the step that ends changes more than the end";
    return same_machine(image) ? NULL : "the cores differ at the end";
}

/* The area from the image's end on, of which the file leaves out a hole of zeros. */
static bool same_after(const struct stored *image, const uint8_t *at)
{
    size_t length = image->area_length - image->image_length, behind = image->hole + image->hole_length;
    for (size_t k = image->hole; k < behind; k++)
        if (at[k] != 0)
            return false;
    return memcmp(at, image->after, image->hole) == 0
        && memcmp(at + behind, image->after_hole, length - behind) == 0;
}

static const char *differ_from_record(const struct stored *image, const struct path *path)
{
    if (path->entries != image->entry_count || path->run != image->run_count)
        return "another number of entries than QEMU's";
    if (path->digest != image->digest)
        return "registers, flags, Y or nesting on the way are not QEMU's";
    if (memcmp(old.state, image->last, REGISTERS_AND_FLAGS) != 0)
        return "registers or flags at the end are not QEMU's";
    if (number_in(&old, OLD_Y) != word_at(image->last_y))
        return "Y at the end is not QEMU's";
    if (number_in(&old, NESTING) != word_at(image->last_nesting))
        return "the nesting at the end is not QEMU's";
    if (memcmp(old.data, image->image, image->image_length) != 0 || !same_after(image, old.data + image->image_length))
        return "the data at the end is not QEMU's";
    if (memcmp(old.data + image->results_at, image->results, 4 * image->result_count) != 0)
        return "the results are not the known ones";
    return NULL;
}

/* The same runs in fewer calls: every byte is left as the many calls left it. */
static const char *differ_in_strides(const struct stored *image, uint16_t count)
{
    begin_old(image, &far_old);
    begin_new(image, &far_new);
    while (far_old.end.end == 0 && far_old.steps < MOST_STEPS)
        run_old(image, &far_old, count);
    while (far_new.end.end == 0 && far_new.steps < MOST_STEPS)
        run_new(image, &far_new, count);
    if (memcmp(far_old.state, old.state, PIJORREL_OLD_STATE) != 0
        || memcmp(far_new.state, new.state, PIJORREL_NEW_STATE) != 0)
        return "larger counts leave another state";
    if (memcmp(far_old.data, old.data, LONGEST_AREA) != 0 || memcmp(far_new.data, new.data, LONGEST_AREA) != 0)
        return "larger counts leave other data";
    return NULL;
}

/* ---- a record spoiled */

/* Whether a run of the path begins with a nop or another word whose result goes to register 0: a comparison with a
 * constant one greater may come out alike. */
static bool begins_idly(const struct stored *image, size_t run)
{
    size_t at = 4 * (size_t)half_at(image->path + 4 * run);
    uint32_t word = at + 4 <= image->image_length ? word_at(image->image + at) : NOP;
    return word == NOP || (word >> 30 == 2 && (word >> 19 & 63) != JMPL && (word >> 25 & 31) == 0);
}

/* A place that is run in the middle of the path. */
static size_t place_in_middle(const struct stored *image)
{
    size_t run = image->run_count / 2;
    uint32_t address;
    while (run + 1 < image->run_count && begins_idly(image, run))
        run++;
    address = image->base + 4 * half_at(image->path + 4 * run);
    for (size_t k = 0; k < place_count; k++)
        if (word_at(places + 16 * k) == address)
            return k;
    return 0;
}

/* One bit of that place's first record: of the word, the link, the condition or the record gone to. */
static void spoil_record(const struct stored *image)
{
    uint8_t *record = records + 12 * (size_t)word_at(places + 16 * place_in_middle(image) + 12);
    put_word(record + 4, word_at(record + 4) ^ 1);
}

/* ---- no unimps */

/* A call, or a jmpl with rd not 0. */
static bool links(uint32_t word)
{
    return word >> 30 == 1 || (word >> 30 == 2 && (word >> 19 & 63) == JMPL && (word >> 25 & 31) != 0);
}

static bool is_unimp(uint32_t word)
{
    return word >> 30 == 0 && (word >> 22 & 7) == 0;
}

static unsigned long change_unimps(uint8_t *bytes, size_t length)
{
    unsigned long changed = 0;
    for (size_t at = 0; at + 12 <= length; at += 4)
        if (links(word_at(bytes + at)) && is_unimp(word_at(bytes + at + 8))) {
            put_word(bytes + at + 8, word_at(bytes + at + 8) | OP2_BIT);
            changed++;
        }
    return changed;
}

/* Whether the new core ended with 6 where the old one stands and QEMU was next, right behind a changed word. */
static bool lost_past_a_call(const struct stored *image, struct path *path)
{
    uint32_t address = number_in(&old, PC), at = address - image->base;
    return new.end.end == UNPLACED && old.end.end == 0 && new.end.number == address && same_machine(image)
        && on_path(image, path, address) && at >= 12 && links(word_at(image->image + at - 12))
        && is_unimp(word_at(image->image + at - 4) ^ OP2_BIT);
}

const char *check_without_unimps(const struct stored *image, unsigned long *changed)
{
    static uint8_t bytes[LONGEST_AREA];
    struct stored without = *image;
    struct path path = { 0 };
    const char *what;
    unsigned long count;
    memcpy(bytes, image->image, image->image_length);
    count = change_unimps(bytes, image->image_length);
    *changed += count;
    if (count == 0)
        return NULL;
    without.image = bytes;
    if (!translated(&without))
        return "refused by the translator";
    begin_old(&without, &old);
    begin_new(&without, &new);
    what = differ_on_the_way(&without, &path);
    return what ? what : lost_past_a_call(&without, &path) ? NULL : "no end 6 where a call returns past the word";
}

/* ---- all of it */

static void add_counts(const struct path *path, struct counts *counts)
{
    counts->places += place_count;
    counts->records += record_count;
    counts->entries += path->entries;
    counts->old_steps += old.steps;
    counts->new_steps += new.steps;
    counts->products += path->products;
    counts->reads += path->reads;
    counts->writes += path->writes;
    counts->saves += path->saves;
    counts->restores += path->restores;
}

const char *check_image(const struct stored *image, bool spoil, struct counts *counts)
{
    struct path path = { .digest = 0xCBF29CE484222325u };
    const char *what;
    if (!translated(image))
        return "refused by the translator";
    if (spoil)
        spoil_record(image);
    begin_old(image, &old);
    begin_new(image, &new);
    what = differ_on_the_way(image, &path);
    add_counts(&path, counts);
    what = what ? what : differ_at_end(image);
    what = what ? what : differ_from_record(image, &path);
    what = what ? what : differ_in_strides(image, 97);
    return what ? what : differ_in_strides(image, UINT16_MAX);
}
