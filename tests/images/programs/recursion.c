/* Recursion: the tower's moves, numbers of Fibonacci and Ackermann, permutations, parts that are sorted in turn. */
#include "image.h"

enum { NUMBERS = 20 };

word results[RESULTS];
static word moves, found, mixture;
static int numbers[NUMBERS];

static void tower(int discs, word from, word to)
{
    if (discs == 0)
        return;
    tower(discs - 1, from, 6 - from - to);
    moves++;
    mixture = (mixture << 3 | mixture >> 29) ^ (from << 2 | to);
    tower(discs - 1, 6 - from - to, to);
}

static word fibonacci(word n)
{
    return n < 2 ? n : fibonacci(n - 1) + fibonacci(n - 2);
}

static word ackermann(word m, word n)
{
    if (m == 0)
        return n + 1;
    return ackermann(m - 1, n ? ackermann(m, n - 1) : 1);
}

/* Orders of the letters in which no letter stands at its own position. */
static void arrange(char *letters, int at, int count)
{
    if (at == count) {
        found++;
        return;
    }
    for (int i = at; i < count; i++) {
        char here = letters[i];
        letters[i] = letters[at];
        letters[at] = here;
        if (here != 'a' + at)
            arrange(letters, at + 1, count);
        letters[at] = letters[i];
        letters[i] = here;
    }
}

static void sort(int *first, int *last)
{
    int *low = first, *high = last, pivot;
    if (first >= last)
        return;
    pivot = first[(last - first) >> 1];
    while (low <= high) {
        while (*low < pivot)
            low++;
        while (*high > pivot)
            high--;
        if (low <= high) {
            int kept = *low;
            *low++ = *high;
            *high-- = kept;
        }
    }
    sort(first, high);
    sort(low, last);
}

int main(void)
{
    static char letters[] = "abcde";
    word state = 314159265;
    tower(5, 1, 3);
    results[0] = moves;
    results[1] = mixture;
    results[2] = fibonacci(10);
    results[3] = ackermann(2, 3);
    arrange(letters, 0, 5);
    results[4] = found;
    for (int i = 0; i < NUMBERS; i++)
        numbers[i] = (int)drawn(&state);
    sort(numbers, numbers + NUMBERS - 1);
    for (int i = 0; i < 10; i++)
        results[5 + i] = (word)numbers[2 * i];
    return 0;
}
