/* Whole processes, from their start to their end, beside qemu-sparc: each side reads the same file, runs the same
 * program and writes out its data, and what all sides write is compared before anything is measured.
 *
 *   bench_whole SIDE FOLDER [QEMU]   the paths of whole_side and qemu-sparc; the programs' files go into FOLDER;
 *                                    without QEMU the other sides are compared, and nothing is measured
 *
 * The exit status is 0 if all sides agree.
 */
#define _POSIX_C_SOURCE 200809L

#include <fcntl.h>
#include <spawn.h>
#include <stdio.h>
#include <stdlib.h>
#include <string.h>
#include <sys/wait.h>

#include "sides.h"
#include "timing.h"

enum { SIDES = 4, QEMU = SIDES - 1 };
enum { ROUNDS = 401 }; /* odd, so that one is in the middle */

static const struct {
    const char *name;
    char *word; /* what whole_side calls it */
} kinds[SIDES] = { { "old core", "old" }, { "translator and new core", "new" }, { "C, old core", "rival" },
                   { "qemu-sparc", NULL } };

struct side {
    char *command[4];    /* NULL after the last word */
    double took[ROUNDS]; /* seconds */
};

struct program {
    struct whole whole;
    char file[4096], output[4096];
    struct side sides[SIDES];
};

/* Runs a command to its end, with what it writes going to a file; true if it left with 0. It is given no environment,
 * so that no setting of QEMU's counts. */
static bool run(char *const *command, const char *output)
{
    char *const none[] = { NULL };
    posix_spawn_file_actions_t actions;
    pid_t process;
    int status, failed;
    posix_spawn_file_actions_init(&actions);
    posix_spawn_file_actions_addopen(&actions, 1, output, O_WRONLY | O_CREAT | O_TRUNC, 0644);
    failed = posix_spawn(&process, command[0], &actions, NULL, command, none);
    posix_spawn_file_actions_destroy(&actions);
    return !failed && waitpid(process, &status, 0) == process && status == 0;
}

/* ---- before measuring */

/* Counts words and records, by calls of one step. All programs but the last are to have the steps asked for. */
static bool count_steps(const struct program *p, int number)
{
    struct whole on_old = p->whole, on_new = p->whole;
    uint32_t words = run_old(&on_old, 1).calls, records = run_new(&on_new, 1).calls;
    printf("%-10s  %5u words on the old core, %6u records on the new one\n", p->whole.name, words, records);
    if (number == LOOPS || words == WHOLE_STEPS)
        return true;
    printf("the words are to be %d\n", WHOLE_STEPS);
    return false;
}

/* What a side writes: just as many bytes as the data has. */
static bool take_data(const struct program *p, int side, uint8_t *data)
{
    FILE *file = run(p->sides[side].command, p->output) ? fopen(p->output, "rb") : NULL;
    bool good = file && fread(data, WHOLE_DATA, 1, file) == 1 && getc(file) == EOF;
    if (file)
        fclose(file);
    return good;
}

/* Every side up to the last one, which is the first asked, leaves the same data and registers. */
static bool equal(const struct program *p, int last)
{
    uint8_t data[SIDES][WHOLE_DATA];
    for (int i = last; i >= 0; i--) {
        if (!take_data(p, i, data[i]) || memcmp(data[i], data[last], WHOLE_DATA) != 0) {
            printf("%s: %s fails, or leaves other data or registers than %s\n", p->whole.name, kinds[i].name,
                   kinds[last].name);
            return false;
        }
    }
    return true;
}

static void put_command(struct side *side, char *first, char *second, char *third)
{
    side->command[0] = first;
    side->command[1] = second;
    side->command[2] = third;
}

static bool prepare(struct program *p, int number, char **paths)
{
    char *side = paths[0], *folder = paths[1], *qemu = paths[2];
    p->whole = whole_at(number);
    snprintf(p->file, sizeof p->file, "%s/%s.elf", folder, p->whole.name);
    snprintf(p->output, sizeof p->output, "%s/%s.output", folder, p->whole.name);
    for (int i = 0; i < QEMU; i++)
        put_command(&p->sides[i], side, kinds[i].word, p->file);
    put_command(&p->sides[QEMU], qemu, p->file, NULL);
    if (!write_whole(&p->whole, p->file)) {
        perror(p->file);
        return false;
    }
    return count_steps(p, number) && equal(p, qemu ? QEMU : QEMU - 1);
}

/* ---- measuring */

/* In an order drawn for each round: what runs right after QEMU takes some hundredths of a millisecond more. */
static void draw_order(int order[SIDES])
{
    for (int i = 0; i < SIDES; i++) {
        int at = rand() % (i + 1);
        order[i] = order[at];
        order[at] = i;
    }
}

static bool take_times(struct side *sides)
{
    for (int round = 0; round < ROUNDS; round++) {
        int order[SIDES];
        draw_order(order);
        for (int i = 0; i < SIDES; i++) {
            struct side *side = &sides[order[i]];
            double start = wall_seconds();
            if (!run(side->command, "/dev/null"))
                return false;
            side->took[round] = wall_seconds() - start;
        }
    }
    return true;
}

static int shorter_first(const void *a, const void *b)
{
    double first = *(const double *)a, second = *(const double *)b;
    return (first > second) - (first < second);
}

static void print_sides(struct program *p)
{
    const double *qemu = p->sides[QEMU].took;
    for (int i = 0; i < SIDES; i++)
        qsort(p->sides[i].took, ROUNDS, sizeof(double), shorter_first);
    for (int i = 0; i < SIDES; i++) {
        double best = p->sides[i].took[0], median = p->sides[i].took[ROUNDS / 2];
        printf("%-10s  %-23s  %6.2f  %6.2f  %9.3f  %11.3f\n", p->whole.name, kinds[i].name, best * 1e3, median * 1e3,
               best / qemu[0], median / qemu[ROUNDS / 2]);
    }
}

static int measure(struct program *programs)
{
    printf("\nwhole processes, milliseconds from start to end: %d rounds of every side, in turn\n"
           "%-10s  %-23s  %6s  %6s  %9s  %11s\n",
           ROUNDS, "program", "side", "best", "median", "best/QEMU", "median/QEMU");
    for (int i = 0; i < WHOLE_PROGRAMS; i++) {
        if (!take_times(programs[i].sides))
            return EXIT_FAILURE;
        print_sides(&programs[i]);
    }
    return EXIT_SUCCESS;
}

int main(int argc, char **argv)
{
    static struct program programs[WHOLE_PROGRAMS];
    if (argc != 3 && argc != 4) {
        fprintf(stderr, "usage: %s SIDE FOLDER [QEMU]\n", argv[0]);
        return 2;
    }
    for (int i = 0; i < WHOLE_PROGRAMS; i++)
        if (!prepare(&programs[i], i, argv + 1))
            return EXIT_FAILURE;
    if (argc == 4)
        return measure(programs);
    printf("whole programs: of all %d every side leaves the same data and registers\n", WHOLE_PROGRAMS);
    return EXIT_SUCCESS;
}
