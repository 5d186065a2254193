/* Whole runs of both cores: over each image of a file of translator cases that is accepted, and its translation, from
 * every plain place with seeded registers, windows, Y, flags and data, cut at several numbers of entries. With one
 * record of each translation spoiled, it shows that the comparison can fail. Leaves with 0 if all trails are as
 * demand 3 says, 1 if some are not, 2 if nothing can be said. */
#include <inttypes.h>
#include <stdio.h>
#include <stdlib.h>
#include <string.h>

#include "../../bench/numbers.h"
#include "../stored.h"
#include "trails.h"

enum { TAG = 0x54524E53, STARTS = 8, PLACES_ROOM = 1 << 13, RECORDS_ROOM = 3 << 12, ENDS = 10 };

static const int cuts[] = { 1, 2, 3, 8, LONGEST_CUT };

/* What was seen. Entries are counted once for both trails; ends are those that close the new trails; shown are the
 * spoiled images with a difference. */
static struct {
    unsigned long images, places, pairs, entries, exceptions, differences, ends[ENDS], spoiled, shown;
} seen;

/* A case of the file. */
struct given {
    uint32_t numbers[9];
    const uint8_t *image, *entries, *places, *records;
};

enum { MARK, IMAGE_LENGTH, BASE, ENTRIES_LENGTH, PLACES_LENGTH, RECORDS_LENGTH, ANSWER, FIRST, SECOND };

static uint64_t random_state;

/* splitmix64 */
static uint32_t draw(void)
{
    uint64_t z = random_state += 0x9E3779B97F4A7C15u;
    z = (z ^ (z >> 30)) * 0xBF58476D1CE4E5B9u;
    z = (z ^ (z >> 27)) * 0x94D049BB133111EBu;
    return (uint32_t)((z ^ (z >> 31)) >> 32);
}

static uint32_t below(uint32_t limit)
{
    return (uint32_t)(((uint64_t)draw() * limit) >> 32);
}

/* A register: any number, a small one, one near the data, one near the image, or one at an edge. */
static uint32_t any_register(const struct program *program, uint32_t data_base)
{
    static const uint32_t edges[] = { 0, 0x7FFFFFFF, 0x80000000, 0xFFFFFFFF };
    switch (below(8)) {
    case 0:
        return draw();
    case 1:
        return below(17) - 8;
    case 2:
        return data_base + below(DATA_ROOM + 8) - 4;
    case 3:
        return data_base + 4 * below(DATA_ROOM / 4);
    case 4:
        return edges[below(4)];
    default:
        return program->base + 4 * (below((uint32_t)program->image_length / 4 + 4) - 2);
    }
}

static void fill(uint8_t *bytes, size_t length)
{
    for (size_t i = 0; i < length; i++)
        bytes[i] = (uint8_t)draw();
}

/* Y, a nesting, seldom one above 6, and all windows. */
static void any_windows(const struct program *program, uint32_t data_base, uint8_t *windows)
{
    for (int k = 0; k < Y_AND_WINDOWS / 4; k++)
        put_word(windows + 4 * k, any_register(program, data_base));
    put_word(windows + 4, below(8) ? below(7) : 7 + (draw() >> below(32)));
}

/* A start at an address. Register 0, the high bits of the flags' number and the current window's numbers among the
 * windows are not read. */
static void any_start(const struct program *program, uint32_t address, struct start *start)
{
    static const uint32_t bases[] = { 0, 0x8000, 0xFFFFFFE0 };
    start->address = address;
    start->data_base = bases[below(3)];
    start->data_length = below(4) ? DATA_ROOM : below(DATA_ROOM);
    for (int r = 0; r < 32; r++)
        put_word(start->machine + 4 * r, any_register(program, start->data_base));
    put_word(start->machine + 128, draw());
    any_windows(program, start->data_base, start->windows);
    fill(start->data, DATA_ROOM);
}

static void report(const struct start *start, int cut, const char *what)
{
    if (seen.differences++ == 0)
        printf("accepted image %lu, from %" PRIu32 ", cut at %d: %s\n", seen.images, start->address, cut, what);
}

/* Both trails from one start at one cut. */
static void compare(const struct program *program, const struct start *start, int cut)
{
    static struct trail old, new;
    const char *what;
    trail_of(begin_old, program, start, cut, &old);
    trail_of(begin_new, program, start, cut, &new);
    what = difference(program, start, &old, &new);
    seen.pairs++;
    seen.ends[new.end % ENDS]++;
    if (what) {
        report(start, cut, what);
        return;
    }
    seen.entries += (unsigned long)new.count;
    seen.exceptions += new.end == 6;
}

static void run_from(const struct program *program, uint32_t address)
{
    struct start start;
    seen.places++;
    for (size_t k = 0; k < STARTS * sizeof cuts / sizeof *cuts; k++) {
        if (k % (sizeof cuts / sizeof *cuts) == 0)
            any_start(program, address, &start);
        compare(program, &start, cuts[k % (sizeof cuts / sizeof *cuts)]);
    }
}

static void run_all(const struct program *program)
{
    seen.images++;
    for (size_t k = 0; k < program->place_count; k++)
        if (word_at(program->places + 16 * k + 8) == 0)
            run_from(program, word_at(program->places + 16 * k));
}

/* One number of a record made another one: the word, the link, the held word, the condition, the record gone to, the
 * kind, the end. */
static void spoil_record(uint8_t *record)
{
    static const uint32_t other[8] = { 0, 1, 8, 4, 8, 1, 3, 1 };
    uint32_t kind = word_at(record);
    uint8_t *number = kind == 6 ? record : record + 4;
    put_word(number, word_at(number) ^ other[kind]);
}

/* Spoils the first record of a kind; false if there is none. */
static bool spoil(uint8_t *records, size_t count, uint32_t kind)
{
    for (size_t k = 0; k < count; k++) {
        if (word_at(records + 12 * k) == kind) {
            spoil_record(records + 12 * k);
            return true;
        }
    }
    return false;
}

/* The library's translation, beside the one that the case has. */
static bool translated(const struct given *given, uint8_t *places, uint8_t *records)
{
    const uint32_t *n = given->numbers;
    struct pijorrel_answer answer;
    if (n[PLACES_LENGTH] > PLACES_ROOM || n[RECORDS_LENGTH] > RECORDS_ROOM)
        return false;
    answer = pijorrel_translate(given->image, n[IMAGE_LENGTH], n[BASE], given->entries, n[ENTRIES_LENGTH], places,
                                n[PLACES_LENGTH], records, n[RECORDS_LENGTH]);
    return answer.number == 0 && answer.first == n[FIRST] && answer.second == n[SECOND]
        && memcmp(places, given->places, (size_t)16 * n[FIRST]) == 0
        && memcmp(records, given->records, (size_t)12 * n[SECOND]) == 0;
}

/* All runs over one accepted image, with a kind whose first record is spoiled, or 0. */
static bool run_image(const struct given *given, uint32_t spoiled)
{
    static uint8_t places[PLACES_ROOM], records[RECORDS_ROOM];
    const uint32_t *n = given->numbers;
    const struct program program = { given->image, places, records, n[IMAGE_LENGTH], n[FIRST], n[SECOND], n[BASE] };
    unsigned long before = seen.differences;
    if (!translated(given, places, records)) {
        fprintf(stderr, "a translation is not that of the file\n");
        return false;
    }
    seen.spoiled += spoil(records, n[SECOND], spoiled);
    run_all(&program);
    seen.shown += seen.differences > before;
    return true;
}

static bool take_case(const uint8_t **at, const uint8_t *end, struct given *given)
{
    uint32_t *n = given->numbers;
    const uint8_t *head = take(at, end, 36);
    if (!head)
        return false;
    for (int k = 0; k < 9; k++)
        n[k] = word_at(head + 4 * k);
    given->image = take(at, end, n[IMAGE_LENGTH]);
    given->entries = take(at, end, n[ENTRIES_LENGTH]);
    given->places = take(at, end, n[ANSWER] ? 0 : (size_t)16 * n[FIRST]);
    given->records = take(at, end, n[ANSWER] ? 0 : (size_t)12 * n[SECOND]);
    return *at && n[MARK] == TAG;
}

/* All accepted cases; false if the file is damaged, or a translation is not its own. */
static bool run_file(const uint8_t *bytes, size_t length, uint32_t spoiled)
{
    const uint8_t *at = bytes, *end = bytes + length, *count = take(&at, end, 4);
    uint32_t cases = count ? word_at(count) : 0;
    struct given given;
    for (uint32_t k = 0; k < cases; k++) {
        if (!take_case(&at, end, &given))
            return false;
        if (given.numbers[ANSWER] == 0 && !run_image(&given, spoiled))
            return false;
    }
    return cases > 0 && at == end;
}

static void print_seen(void)
{
    printf("trails: %lu images, %lu plain places, %lu pairs of trails, %lu entries compared, %lu met the exception, "
           "%lu differ\n", seen.images, seen.places, seen.pairs, seen.entries, seen.exceptions, seen.differences);
    printf("trails: closed with");
    for (int end = 0; end < ENDS; end++)
        printf(" %d: %lu%s", end, seen.ends[end], end + 1 < ENDS ? "," : "\n");
}

static void print_spoiled(uint32_t kind)
{
    printf("trails: of %lu images with a record of kind %" PRIu32 " spoiled, %lu show it\n", seen.spoiled, kind,
           seen.shown);
}

int main(int count, char **words)
{
    static uint8_t bytes[LARGEST_FILE];
    uint32_t spoiled = 0;
    if (count == 4 && strcmp(words[1], "--spoil") == 0)
        spoiled = (uint32_t)strtoul(words[2], NULL, 10);
    if ((count != 2 && spoiled == 0) || spoiled > 7) {
        fprintf(stderr, "usage: trails [--spoil KIND] FILE\n");
        return 2;
    }
    random_state = 1;
    if (!run_file(bytes, read_file(words[count - 1], bytes), spoiled)) {
        fprintf(stderr, "%s is not a whole file of cases for this\n", words[count - 1]);
        return 2;
    }
    if (spoiled)
        print_spoiled(spoiled);
    else
        print_seen();
    if (seen.differences > 0)
        return 1;
    return seen.entries > 500 && seen.exceptions > 0 ? 0 : 2;
}
