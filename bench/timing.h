/* What all benchmarks share: the clocks, and the rows of a table that bench/run reads. */
#ifndef TIMING_H
#define TIMING_H

/* The time that this process was given, so that others on the machine count less. */
double seconds(void);

/* The time that passes, for what other processes do. */
double wall_seconds(void);

/* Keeps the shorter of the best time and the one since start. */
void keep_best(double *best, double start);

/* A table has a line that says what it shows, this heading, and rows. */
void print_heading(const char *of);
void print_row(const char *name, double library, double rival);

#endif
