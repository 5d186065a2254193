/* Loads a program onto the new core: translates an image and runs it, or says in words why it is turned away.
 *
 *   loader [-b BASE] [-e ENTRY]... [-d DATABASE] [-D DATAFILE] [-s START] [-n MOST] [-c] IMAGE
 *
 *   IMAGE        a file of big-endian words, at most 16,384 bytes
 *   -b BASE      the image's address (0)
 *   -e ENTRY     an address where runs may begin; up to 64 of them (the base)
 *   -s START     the address where this run begins (the first entry)
 *   -d DATABASE  the data area's address (0)
 *   -D DATAFILE  what the data area holds, and so its length: at most 65,536 bytes (no data)
 *   -n MOST      stop after so many records, or with -c entries (1,000,000)
 *   -c           run both cores side by side instead, and compare them at every entry
 *
 * Numbers are decimal, or hexadecimal after 0x. Registers, windows and Y begin as 0, flags clear. It leaves with
 *   0  the run has ended; with -c: no difference
 *   1  the translation is refused
 *   2  the command line is wrong, a file cannot be read, or with -c there is no place at START
 *   3  the cores differ (this does not happen)
 *   4  still going after MOST records
 */
#include "pijorrel.h"

#include <errno.h>
#include <inttypes.h>
#include <string.h>

#include "entries.h"
#include "shared.h"

enum {
    ENDED, REFUSED, UNUSABLE, DIFFERENT, GOING, /* exit statuses */
    IMAGE_ROOM = 1 << 20,                       /* more than is accepted, so that the refusal can name the length */
    DATA_ROOM = 65536,
    ENTRIES_ROOM = 4 * 1024,
    FLAGS = 32, Y = 37, NESTING = 38            /* numbers of the new core's state */
};

/* What the command line says. */
struct order {
    const char *image_path, *data_path;
    uint32_t base, start, data_base;
    uint64_t most;
    uint8_t entries[ENTRIES_ROOM];
    size_t entries_length;
    bool started, compare;
};

static uint8_t image[IMAGE_ROOM], places[PIJORREL_PLACES_ENOUGH], records[PIJORREL_RECORDS_ENOUGH];
static uint8_t data[DATA_ROOM], other_data[DATA_ROOM];

static void usage(void)
{
    fprintf(stderr, "usage: loader [-b BASE] [-e ENTRY]... [-d DATABASE] [-D DATAFILE] [-s START] [-n MOST] [-c] "
                    "IMAGE\n");
    exit(UNUSABLE);
}

static uint64_t number_of(const char *text, uint64_t most)
{
    char *end = NULL;
    errno = 0;
    unsigned long long value = text ? strtoull(text, &end, strncmp(text, "0x", 2) == 0 ? 16 : 10) : 0;
    if (!text || text[0] < '0' || text[0] > '9' || *end || errno || value > most) {
        fprintf(stderr, "%s is no number up to %" PRIu64 "\n", text ? text : "nothing", most);
        usage();
    }
    return value;
}

static void add_entry(struct order *order, uint32_t entry)
{
    if (order->entries_length == ENTRIES_ROOM)
        usage();
    put_number(order->entries, order->entries_length / 4, entry);
    order->entries_length += 4;
}

/* One option with the word after it, if it takes one; how many words these are. */
static int take_option(struct order *order, char option, const char *word)
{
    switch (option) {
    case 'c':
        order->compare = true;
        return 1;
    case 'D':
        if (!word)
            usage();
        order->data_path = word;
        return 2;
    case 'n':
        order->most = number_of(word, UINT64_MAX);
        return 2;
    case 'b':
        order->base = (uint32_t)number_of(word, UINT32_MAX);
        return 2;
    case 'd':
        order->data_base = (uint32_t)number_of(word, UINT32_MAX);
        return 2;
    case 'e':
        add_entry(order, (uint32_t)number_of(word, UINT32_MAX));
        return 2;
    case 's':
        order->start = (uint32_t)number_of(word, UINT32_MAX);
        order->started = true;
        return 2;
    }
    usage();
    return 0;
}

static void take_order(struct order *order, int count, char **words)
{
    int at = 1;
    order->most = 1000000;
    while (at < count && words[at][0] == '-') {
        if (strlen(words[at]) != 2)
            usage();
        at += take_option(order, words[at][1], words[at + 1]); /* the word past the last is NULL */
    }
    if (at + 1 != count)
        usage();
    order->image_path = words[at];
    if (order->entries_length == 0)
        add_entry(order, order->base);
    if (!order->started)
        order->start = number_at(order->entries, 0);
}

static void print_refusal(const struct pijorrel_answer *answer)
{
    static const char *const reasons[] = {
        "", "the image's length is 0, above 16,384 or no multiple of 4: ", "the base is no multiple of 4: ",
        "an entry is misaligned or outside the image; the first that is has position ",
        "a branch, call or jmpl stands in the delay slot of a jmpl, at address ",
        "there are more than 8,192 places; the one too many is at address ", "the record buffer is short of "
    };
    bool bad_count = answer->number == 3 && answer->first == 0;
    printf("refused (%" PRIu32 "): ", answer->number);
    if (bad_count)
        printf("there are more than 64 entries\n");
    else
        printf("%s%" PRIu64 "\n", reasons[answer->number < 7 ? answer->number : 0], answer->first);
}

static void print_end(uint32_t end, uint32_t number)
{
    static const char *const beside[] = { "", "trap number", "address", "address", "address", "address", "address",
                                          "record", "nesting", "nesting" };
    printf("ended (%" PRIu32 "): %s, %s %" PRIu32 "\n", end, words_of_end(end), beside[end < 10 ? end : 0], number);
}

/* The flags, and every register of the current window, Y and the nesting where they are not 0. */
static void print_machine(const uint8_t *state)
{
    static const char *const names[] = { "N", "Z", "V", "C" };
    printf("flags:");
    for (int i = 0; i < 4; i++)
        printf(" %s=%d", names[i], (int)(number_at(state, FLAGS) >> (3 - i) & 1));
    printf("\n");
    for (size_t i = 1; i < 32; i++)
        if (number_at(state, i) != 0)
            printf("r%zu = %" PRIu32 "\n", i, number_at(state, i));
    if (number_at(state, Y) != 0)
        printf("Y = %" PRIu32 "\n", number_at(state, Y));
    if (number_at(state, NESTING) != 0)
        printf("nesting = %" PRIu32 "\n", number_at(state, NESTING));
}

/* Runs in pieces of at most 65,535 records, since a count has 16 bits. */
static int run(const struct program *program, const struct order *order, size_t data_length)
{
    uint8_t state[PIJORREL_NEW_STATE] = { 0 };
    uint32_t length = (uint32_t)program->image_length;
    size_t table = 16 * program->place_count, list = 12 * program->record_count;
    uint64_t left = order->most;
    struct pijorrel_end end = pijorrel_new_begin(places, table, order->base, length, order->start, state);
    while (end.end == 0 && left > 0) {
        uint16_t count = left < 65535 ? (uint16_t)left : 65535;
        end = pijorrel_new_run(records, list, places, table, order->base, length, order->data_base, state, data,
                               data_length, count);
        left -= count;
    }
    if (end.end == 0)
        printf("still going after %" PRIu64 " records\n", order->most);
    else
        print_end(end.end, end.number);
    print_machine(state);
    return end.end == 0 ? GOING : ENDED;
}

/* What differs between two entries, or NULL. */
static const char *difference(const struct walk *old, const struct walk *new)
{
    if (old->closed != new->closed)
        return "one core has an entry and the other has none";
    if (old->closed)
        return old->end == new->end && old->number == new->number ? NULL : "the ends";
    if (old->address != new->address)
        return "the addresses";
    if (memcmp(old->state, new->state, REGISTERS_AND_FLAGS) != 0)
        return "registers or flags";
    if (memcmp(old->windows, new->windows, Y_AND_WINDOWS) != 0)
        return "Y, nesting or windows";
    if (old->data_length > 0 && memcmp(old->data, new->data, old->data_length) != 0)
        return "the data";
    return NULL;
}

static void print_walk(const char *name, const struct walk *walk)
{
    if (!walk->closed)
        printf("%s: at address %" PRIu32 "\n", name, walk->address);
    else if (walk->astray)
        printf("%s: neither entry nor end within %d steps\n", name, MOST_STEPS);
    else
        printf("%s: %s, %" PRIu32 "\n", name, words_of_end(walk->end), walk->number);
}

static int print_difference(const struct walk *old, const struct walk *new, uint64_t entries, const char *what)
{
    printf("different after %" PRIu64 " equal entries: %s\n", entries, what);
    print_walk("old core", old);
    print_walk("new core", new);
    return DIFFERENT;
}

/* The one exception: a jmpl went to an address of the image without a plain place. There the new core ends with 6. */
static bool excepted(const struct walk *new)
{
    return new->closed && new->landed && new->end == 6 && !has_plain_place(new->program, new->number);
}

static int compare(const struct program *program, const struct order *order, size_t data_length)
{
    struct walk old = { .program = program, .data_base = order->data_base, .data = data, .data_length = data_length };
    struct walk new = old;
    uint64_t entries = 0;
    if (!has_plain_place(program, order->start)) {
        fflush(stdout);
        fprintf(stderr, "%" PRIu32 " has no plain place: the new core cannot begin there\n", order->start);
        return UNUSABLE;
    }
    new.data = other_data;
    memcpy(other_data, data, data_length);
    begin_old(&old, order->start);
    begin_new(&new, order->start);
    for (; entries < order->most; entries++) {
        const char *what = excepted(&new) ? NULL : difference(&old, &new);
        if (what)
            return print_difference(&old, &new, entries, what);
        if (new.closed)
            break;
        next_entry(&old);
        next_entry(&new);
    }
    printf("no difference in %" PRIu64 " entries\n", entries);
    if (!new.closed)
        printf("both still going\n");
    else
        print_end(new.end, new.number);
    if (excepted(&new))
        printf("the old core goes on there: give the address as an entry to have a place for it\n");
    return ENDED;
}

int main(int count, char **words)
{
    static struct order order;
    take_order(&order, count, words);
    size_t length = load(order.image_path, image, sizeof image);
    size_t data_length = order.data_path ? load(order.data_path, data, sizeof data) : 0;
    struct pijorrel_answer answer = pijorrel_translate(image, length, order.base, order.entries, order.entries_length,
                                                       places, sizeof places, records, sizeof records);
    if (answer.number != 0) {
        print_refusal(&answer);
        return REFUSED;
    }
    const struct program program = { image, places, records, length, answer.first, answer.second, order.base };
    printf("accepted: %" PRIu64 " places, %" PRIu64 " records\n", answer.first, answer.second);
    return order.compare ? compare(&program, &order, data_length) : run(&program, &order, data_length);
}
