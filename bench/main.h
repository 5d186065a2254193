/* What main.c calls, as its command line says; a benchmark has all three, and each gives an exit status. */
#ifndef MAIN_H
#define MAIN_H

int benchmark(void);
int one_round(const char *name);
int check(const char *path);

#endif
