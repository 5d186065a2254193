/* The main of the benchmarks of both cores, of the translator and of the writer.
 *
 *   bench_OF                times all loops, samples or lists on both sides
 *   bench_OF --round NAME   one round of one of them, to count instructions in
 *   bench_OF --check FILE   holds both sides to the cases of a vectors file
 *
 * The exit status is 0 if both sides agree throughout.
 */
#include "main.h"

#include <stdio.h>
#include <string.h>

int main(int argc, char **argv)
{
    if (argc == 1)
        return benchmark();
    if (argc == 3 && strcmp(argv[1], "--round") == 0)
        return one_round(argv[2]);
    if (argc == 3 && strcmp(argv[1], "--check") == 0)
        return check(argv[2]);
    fprintf(stderr, "usage: %s [--round NAME | --check FILE]\n", argv[0]);
    return 2;
}
