/* A side of bench_whole as a process: reads a program from its file, runs it to its trap, and writes out the data.
 *
 *   whole_side old FILE     the library's old core
 *   whole_side new FILE     the library's translator and new core
 *   whole_side rival FILE   the plain C interpreter of the old core's words
 */
#include <stdio.h>
#include <stdlib.h>
#include <string.h>

#include "document.h"
#include "sides.h"

static const struct {
    const char *name;
    side_function *run;
} sides[] = { { "old", run_old }, { "new", run_new }, { "rival", run_rival } };

static int run(side_function *side, const char *path)
{
    static struct whole whole;
    if (!read_whole(&whole, path) || side(&whole, WHOLE_STEPS).end.end != END_TRAP)
        return EXIT_FAILURE;
    return fwrite(whole.data, sizeof whole.data, 1, stdout) == 1 ? EXIT_SUCCESS : EXIT_FAILURE;
}

int main(int argc, char **argv)
{
    for (size_t i = 0; argc == 3 && i < sizeof sides / sizeof sides[0]; i++)
        if (strcmp(argv[1], sides[i].name) == 0)
            return run(sides[i].run, argv[2]);
    fprintf(stderr, "usage: whole_side old|new|rival FILE\n");
    return 2;
}
