/* Makes the calls of a stream of cases and holds what the library answers and leaves to what the cases say. Every area
 * that is lent stands between guard bytes, and those lent for reading alone are asked to stay as they were.
 *
 *   calls [--bare] < CASES     with --bare no guards: each area is a block of its own of just its length, so that a
 *                              checker of memory sees any access beside it
 *
 * Leaves with 0 if all are equal, 1 if some are not, 2 if the stream is not whole. */
#include <inttypes.h>
#include <stdbool.h>
#include <stdio.h>
#include <stdlib.h>
#include <string.h>

#include "pijorrel.h"

enum { TRANSLATE, OLD_BEGIN, OLD_RUN, NEW_BEGIN, NEW_RUN, FUNCTIONS, FILL = 0xA5, BEHIND_THE_END = 4 * (2 + 128) };

static const uint32_t marks[FUNCTIONS] = { 0x54524E53, 0x4F4C4442, 0x4F4C4443, 0x4E455742, 0x4E455743 };

/* Not a multiple of 4, so that no area is aligned. */
static size_t guard = 29;

/* What the calls met: the translator's answers, and how runs and begins of the cores stood. */
static uint32_t answers[7], ends[10];

/* A lent area; kept is a copy of what it held before the call. */
struct area {
    uint8_t *block, *bytes, *kept;
    size_t length;
};

/* All that the call at hand took. */
static void *rooms[16];
static size_t rooms_taken;

static void *room(size_t length)
{
    void *bytes = malloc(length);
    if ((!bytes && length > 0) || rooms_taken == sizeof rooms / sizeof *rooms) {
        fprintf(stderr, "no memory\n");
        exit(2);
    }
    return rooms[rooms_taken++] = bytes;
}

static void give_back_rooms(void)
{
    while (rooms_taken > 0)
        free(rooms[--rooms_taken]);
}

static void take(void *bytes, size_t length)
{
    if (length > 0 && fread(bytes, 1, length, stdin) != length) {
        fprintf(stderr, "the cases stop short\n");
        exit(2);
    }
}

static uint32_t number_at(const uint8_t *at)
{
    return (uint32_t)at[0] << 24 | (uint32_t)at[1] << 16 | (uint32_t)at[2] << 8 | at[3];
}

static uint32_t take_number(void)
{
    uint8_t bytes[4];
    take(bytes, sizeof bytes);
    return number_at(bytes);
}

static void take_numbers(uint32_t *numbers, int count)
{
    for (int i = 0; i < count; i++)
        numbers[i] = take_number();
}

/* Guards around bytes that are none of the answer, so that one left unwritten shows; without guards, bytes that a
 * checker of memory knows to be unwritten. */
static struct area lend(size_t length)
{
    struct area area = { room(length + 2 * guard), NULL, NULL, length };
    area.bytes = guard > 0 ? area.block + guard : area.block; /* nothing is added to a NULL */
    if (guard > 0)
        memset(area.block, FILL, length + 2 * guard);
    return area;
}

/* An area of the stream, padded there to a multiple of 4. */
static struct area take_area(size_t length)
{
    struct area area = lend(length);
    uint8_t padding[3];
    take(area.bytes, length);
    take(padding, (4 - length % 4) % 4);
    area.kept = room(length);
    if (length > 0)
        memcpy(area.kept, area.bytes, length);
    return area;
}

static bool guards_stand(const struct area *area)
{
    for (size_t i = 0; i < guard; i++)
        if (area->block[i] != FILL || area->bytes[area->length + i] != FILL)
            return false;
    return true;
}

static bool holds(const struct area *area, const uint8_t *known)
{
    return guards_stand(area) && (area->length == 0 || memcmp(area->bytes, known, area->length) == 0);
}

/* Areas lent for reading. */
static bool untouched(const struct area *area)
{
    return holds(area, area->kept);
}

/* The known bytes first, zeros past them. */
static bool holds_padded(const struct area *area, const struct area *known)
{
    for (size_t i = known->length; i < area->length; i++)
        if (area->bytes[i] != 0)
            return false;
    return guards_stand(area) && known->length <= area->length
        && (known->length == 0 || memcmp(area->bytes, known->bytes, known->length) == 0);
}

/* The end and its number stand in a state before Y, the nesting and the windows, and an answer is the same two. */
static bool ends_so(const struct pijorrel_end *end, const struct area *known)
{
    const uint8_t *at = known->bytes + known->length - BEHIND_THE_END - 8;
    ends[number_at(at) % 10]++;
    return end->end == number_at(at) && end->number == number_at(at + 4);
}

static bool answers_so(const struct pijorrel_answer *a, const uint32_t *known)
{
    answers[known[0] % 7]++;
    return a->number == known[0] && a->first == known[1] && a->second == known[2];
}

static bool translate(void)
{
    uint32_t n[8]; /* image, base, entries, places, records; the answer */
    take_numbers(n, 8);
    struct area image = take_area(n[0]), entries = take_area(n[2]), places = lend(n[3]), records = lend(n[4]);
    struct area known_places = take_area(n[5] ? 0 : (size_t)16 * n[6]);
    struct area known_records = take_area(n[5] ? 0 : (size_t)12 * n[7]);
    struct pijorrel_answer a = pijorrel_translate(image.bytes, image.length, n[1], entries.bytes, entries.length,
                                                  places.bytes, places.length, records.bytes, records.length);
    return answers_so(&a, n + 5) && untouched(&image) && untouched(&entries) && holds_padded(&places, &known_places)
        && holds_padded(&records, &known_records);
}

static bool old_begin(void)
{
    uint32_t address = take_number();
    struct area state = take_area(PIJORREL_OLD_STATE), known = take_area(PIJORREL_OLD_STATE);
    pijorrel_old_begin(address, state.bytes);
    return holds(&state, known.bytes);
}

static bool old_run(void)
{
    uint32_t n[5]; /* image, base, data base, data, count */
    take_numbers(n, 5);
    struct area state = take_area(PIJORREL_OLD_STATE), image = take_area(n[0]), data = take_area(n[3]);
    struct area known = take_area(PIJORREL_OLD_STATE), known_data = take_area(n[3]);
    struct pijorrel_end end = pijorrel_old_run(image.bytes, image.length, n[1], n[2], state.bytes, data.bytes,
                                               data.length, (uint16_t)n[4]);
    return ends_so(&end, &known) && untouched(&image) && holds(&state, known.bytes)
        && holds(&data, known_data.bytes);
}

static bool new_begin(void)
{
    uint32_t n[4]; /* places, base, image length, address */
    take_numbers(n, 4);
    struct area state = take_area(PIJORREL_NEW_STATE), places = take_area(n[0]);
    struct area known = take_area(PIJORREL_NEW_STATE);
    struct pijorrel_end end = pijorrel_new_begin(places.bytes, places.length, n[1], n[2], n[3], state.bytes);
    return ends_so(&end, &known) && untouched(&places) && holds(&state, known.bytes);
}

static bool new_run(void)
{
    uint32_t n[7]; /* places, records, base, image length, data base, data, count */
    take_numbers(n, 7);
    struct area state = take_area(PIJORREL_NEW_STATE), places = take_area(n[0]), records = take_area(n[1]);
    struct area data = take_area(n[5]), known = take_area(PIJORREL_NEW_STATE), known_data = take_area(n[5]);
    struct pijorrel_end end =
        pijorrel_new_run(records.bytes, records.length, places.bytes, places.length, n[2], n[3], n[4], state.bytes,
                         data.bytes, data.length, (uint16_t)n[6]);
    return ends_so(&end, &known) && untouched(&places) && untouched(&records) && holds(&state, known.bytes)
        && holds(&data, known_data.bytes);
}

static const struct {
    const char *name;
    bool (*call)(void);
} functions[FUNCTIONS] = {
    { "translate", translate }, { "old_begin", old_begin }, { "old_run", old_run },
    { "new_begin", new_begin }, { "new_run", new_run }
};

static int function_of(uint32_t mark)
{
    for (int i = 0; i < FUNCTIONS; i++)
        if (marks[i] == mark)
            return i;
    fprintf(stderr, "a case of an unknown kind\n");
    exit(2);
}

static void print_list(const char *name, const uint32_t *list, int length)
{
    printf("calls: %s", name);
    for (int i = 0; i < length; i++)
        printf(" %d: %" PRIu32 "%s", i, list[i], i + 1 < length ? "," : "\n");
}

int main(int count, char **words)
{
    uint32_t made[FUNCTIONS] = { 0 }, equal = 0;
    if (count > 2 || (count == 2 && strcmp(words[1], "--bare") != 0)) {
        fprintf(stderr, "usage: calls [--bare] < CASES\n");
        return 2;
    }
    if (count == 2)
        guard = 0;
    uint32_t cases = take_number();
    for (uint32_t k = 0; k < cases; k++) {
        int function = function_of(take_number());
        bool same = functions[function].call();
        give_back_rooms();
        made[function]++;
        equal += same;
        if (!same)
            printf("case %" PRIu32 ", a call of %s, is not as the reading says\n", k, functions[function].name);
    }
    printf("calls: %" PRIu32 " of %" PRIu32 " equal (", equal, cases);
    for (int i = 0; i < FUNCTIONS; i++)
        printf("%s %" PRIu32 "%s", functions[i].name, made[i], i + 1 < FUNCTIONS ? ", " : ")\n");
    print_list("answers", answers, 7);
    print_list("ends", ends, 10);
    return cases == 0 || getchar() != EOF ? 2 : equal != cases;
}
