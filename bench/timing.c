#define _POSIX_C_SOURCE 199309L

#include "timing.h"

#include <stdio.h>
#include <time.h>

static double seconds_of(clockid_t clock)
{
    struct timespec now;
    clock_gettime(clock, &now);
    return (double)now.tv_sec + (double)now.tv_nsec * 1e-9;
}

double seconds(void)
{
    return seconds_of(CLOCK_PROCESS_CPUTIME_ID);
}

double wall_seconds(void)
{
    return seconds_of(CLOCK_MONOTONIC);
}

void keep_best(double *best, double start)
{
    double took = seconds() - start;
    if (took < *best)
        *best = took;
}

void print_heading(const char *of)
{
    printf("%-14s  %10s  %10s  %9s\n", of, "library", "C", "library/C");
}

void print_row(const char *name, double library, double rival)
{
    printf("%-14s  %10.2f  %10.2f  %9.2f\n", name, library, rival, library / rival);
}
