#include "vectors.h"

#include <inttypes.h>
#include <stdio.h>
#include <stdlib.h>

#include "numbers.h"

const uint8_t *take_area(struct reader *reader, size_t length)
{
    const uint8_t *from = reader->bytes + reader->at;
    size_t padded = (length + 3) / 4 * 4;
    if (padded > reader->length - reader->at) {
        reader->short_of = true;
        return NULL;
    }
    reader->at += padded;
    return from;
}

uint32_t take_number(struct reader *reader)
{
    const uint8_t *from = take_area(reader, 4);
    return from ? word_at(from) : 0;
}

/* Reads a whole file into memory of exactly its length. */
static uint8_t *whole_file(const char *path, size_t *length)
{
    FILE *file = fopen(path, "rb");
    uint8_t *bytes = NULL;
    long size;
    if (!file)
        return NULL;
    if (fseek(file, 0, SEEK_END) == 0 && (size = ftell(file)) > 0 && fseek(file, 0, SEEK_SET) == 0) {
        *length = (size_t)size;
        bytes = malloc(*length);
        if (bytes && fread(bytes, 1, *length, file) != *length) {
            free(bytes);
            bytes = NULL;
        }
    }
    fclose(file);
    return bytes;
}

/* Tries all cases; false if the file is damaged. */
static bool all_cases(struct reader *reader, uint32_t cases, case_function *one, struct agreement *agreement)
{
    for (uint32_t i = 0; i < cases; i++)
        if (!one(reader, agreement))
            return false;
    return reader->at == reader->length;
}

int check_file(const char *path, const char *name, case_function *one)
{
    struct reader reader = { 0 };
    struct agreement agreement = { 0, 0 };
    uint32_t cases;
    bool whole;
    uint8_t *bytes = whole_file(path, &reader.length);
    if (!bytes) {
        fprintf(stderr, "cannot read %s\n", path);
        return EXIT_FAILURE;
    }
    reader.bytes = bytes;
    cases = take_number(&reader);
    whole = all_cases(&reader, cases, one, &agreement);
    free(bytes);
    if (!whole) {
        fprintf(stderr, "%s is not a whole file of %s vectors\n", path, name);
        return EXIT_FAILURE;
    }
    printf("%s: of %" PRIu32 " cases the library agrees in %" PRIu32 ", C in %" PRIu32 "\n",
           name, cases, agreement.library, agreement.rival);
    return cases > 0 && agreement.library == cases && agreement.rival == cases ? EXIT_SUCCESS : EXIT_FAILURE;
}
