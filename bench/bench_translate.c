/* The translator's benchmark: the library's pijorrel_translate beside a plain C translator with the same index. */
#include <stdbool.h>
#include <stdio.h>
#include <stdlib.h>
#include <string.h>

#include "document.h"
#include "main.h"
#include "pijorrel.h"
#include "samples.h"
#include "timing.h"
#include "translator.h"
#include "vectors.h"

enum { ROUNDS = 300 }; /* of less than a millisecond, so that some fall into quiet moments of the machine */

typedef struct pijorrel_answer translate_function(const uint8_t *image, size_t image_length, uint32_t base,
                                                  const uint8_t *entries, size_t entries_length, uint8_t *places,
                                                  size_t places_length, uint8_t *records, size_t records_length);

/* What a translation is given. */
struct input {
    const uint8_t *image, *entries;
    size_t image_length, entries_length, places_length, records_length;
    uint32_t base;
};

/* What it answers and leaves; the buffers have room for the input's lengths. */
struct output {
    struct pijorrel_answer answer;
    uint8_t *places, *records;
};

static void translate(translate_function *function, const struct input *in, struct output *out)
{
    out->answer = function(in->image, in->image_length, in->base, in->entries, in->entries_length, out->places,
                           in->places_length, out->records, in->records_length);
}

/* No byte of an output comes from here, so that one left unwritten shows. */
static void spoil(const struct input *in, struct output *out)
{
    memset(out->places, 0xA5, in->places_length);
    memset(out->records, 0xA5, in->records_length);
}

static bool equal(const struct input *in, const struct output *a, const struct output *b)
{
    return a->answer.number == b->answer.number && a->answer.first == b->answer.first
        && a->answer.second == b->answer.second && memcmp(a->places, b->places, in->places_length) == 0
        && memcmp(a->records, b->records, in->records_length) == 0;
}

/* ---- the vectors */

/* The output that a case says; zeros past what it has. False if the file is damaged. */
static bool take_output(struct reader *reader, struct output *known, const struct input *in)
{
    bool accepted = known->answer.number == 0;
    size_t places_used = accepted ? known->answer.first * PLACE_BYTES : 0;
    size_t records_used = accepted ? known->answer.second * RECORD_BYTES : 0;
    const uint8_t *places = take_area(reader, places_used), *records = take_area(reader, records_used);
    if (reader->short_of || places_used > in->places_length || records_used > in->records_length)
        return false;
    memset(known->places, 0, in->places_length);
    memset(known->records, 0, in->records_length);
    memcpy(known->places, places, places_used);
    memcpy(known->records, records, records_used);
    return true;
}

static bool make_output(struct output *out, const struct input *in)
{
    out->places = malloc(in->places_length + 1);
    out->records = malloc(in->records_length + 1);
    return out->places && out->records;
}

static void free_output(struct output *out)
{
    free(out->places);
    free(out->records);
}

static bool agrees(translate_function *function, const struct input *in, const struct output *known,
                   struct output *out)
{
    spoil(in, out);
    translate(function, in, out);
    return equal(in, out, known);
}

/* The numbers and areas of a case before its output. */
static bool take_input(struct reader *reader, struct input *in, struct pijorrel_answer *answer)
{
    if (take_number(reader) != 0x54524E53)
        return false;
    in->image_length = take_number(reader);
    in->base = take_number(reader);
    in->entries_length = take_number(reader);
    in->places_length = take_number(reader);
    in->records_length = take_number(reader);
    answer->number = take_number(reader);
    answer->first = take_number(reader);
    answer->second = take_number(reader);
    in->image = take_area(reader, in->image_length);
    in->entries = take_area(reader, in->entries_length);
    return !reader->short_of;
}

static bool check_case(struct reader *reader, struct agreement *agreement)
{
    struct input in = { 0 };
    struct output known = { 0 }, out = { 0 };
    bool whole;
    if (!take_input(reader, &in, &known.answer))
        return false;
    whole = make_output(&known, &in) && make_output(&out, &in) && take_output(reader, &known, &in);
    if (whole) {
        agreement->library += agrees(pijorrel_translate, &in, &known, &out);
        agreement->rival += agrees(rival_translate, &in, &known, &out);
    }
    free_output(&known);
    free_output(&out);
    return whole;
}

int check(const char *path)
{
    return check_file(path, "translator", check_case);
}

/* ---- the measurement */

/* Translates the images of a sample, one after another. */
static void round_of(translate_function *function, const struct sample *sample, struct input in, struct output *out,
                     double *best)
{
    double start = seconds();
    for (size_t at = 0; at < sizeof sample->images; at += in.image_length) {
        in.image = sample->images + at;
        translate(function, &in, out);
    }
    keep_best(best, start);
}

/* Accepted with buffers just full, or refused as the sample says. */
static bool expected(const struct sample *sample, const struct pijorrel_answer *answer)
{
    if (answer->number != 0)
        return answer->number == sample->number;
    return sample->number == 0 && answer->first * PLACE_BYTES == sample->places_length
        && answer->second * RECORD_BYTES == sample->records_length;
}

/* Whether both sides make the same of each image, and what they should. */
static bool both_right(const struct sample *sample, struct input in, struct output *library, struct output *rival)
{
    for (size_t at = 0; at < sizeof sample->images; at += in.image_length) {
        in.image = sample->images + at;
        spoil(&in, library);
        spoil(&in, rival);
        translate(pijorrel_translate, &in, library);
        translate(rival_translate, &in, rival);
        if (!equal(&in, library, rival) || !expected(sample, &library->answer))
            return false;
    }
    return true;
}

static bool measure(const struct sample *sample, int rounds)
{
    static uint8_t places[2][PLACES_ROOM], records[2][RECORDS_ROOM];
    const uint8_t entry[4] = { 0 };
    struct output library = { .places = places[0], .records = records[0] };
    struct output rival = { .places = places[1], .records = records[1] };
    struct input in = {
        .image_length = 4 * sample->words, .entries = entry, .entries_length = sizeof entry,
        .places_length = sample->places_length, .records_length = sample->records_length
    };
    double library_best = 1e9, rival_best = 1e9;
    /* where instructions are counted, in one round, no other translation may come between */
    if (rounds > 1 && !both_right(sample, in, &library, &rival)) {
        printf("%s: the two sides differ, or a translation is not what it should be\n", sample->name);
        return false;
    }
    for (int i = 0; i < rounds; i++) {
        round_of(pijorrel_translate, sample, in, &library, &library_best);
        round_of(rival_translate, sample, in, &rival, &rival_best);
    }
    print_row(sample->name, library_best * 1e9 / SAMPLE_WORDS, rival_best * 1e9 / SAMPLE_WORDS);
    return true;
}

int benchmark(void)
{
    static struct sample sample;
    bool good = true;
    printf("translator, nanoseconds a word: the best of %d rounds of %d words on each side, in turn\n",
           ROUNDS, SAMPLE_WORDS);
    print_heading("sample");
    for (int i = 0; i < SAMPLES; i++) {
        make_sample(&sample, i);
        good = measure(&sample, ROUNDS) && good;
    }
    return good ? EXIT_SUCCESS : EXIT_FAILURE;
}

int one_round(const char *name)
{
    static struct sample sample;
    for (int i = 0; i < SAMPLES; i++) {
        make_sample(&sample, i);
        if (strcmp(sample.name, name) == 0)
            return measure(&sample, 1) ? EXIT_SUCCESS : EXIT_FAILURE;
    }
    fprintf(stderr, "no sample %s\n", name);
    return 2;
}
