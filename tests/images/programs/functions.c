/* A table of functions that stands in the data, one put together when run, and functions handed on as arguments. */
#include "image.h"

word results[RESULTS];

typedef word operation(word, word);

static word sum(word a, word b)
{
    return a + b;
}

static word gap(word a, word b)
{
    return a > b ? a - b : b - a;
}

static word turned(word a, word b)
{
    b &= 31;
    return b ? a << b | a >> (32 - b) : a;
}

static word mixed(word a, word b)
{
    return (a & ~b) ^ (b >> 3);
}

static word product(word a, word b)
{
    return a * b;
}

static word least(word a, word b)
{
    return a < b ? a : b;
}

static word joined(word a, word b)
{
    return (a << 3 | a >> 29) + b;
}

static operation *const table[] = { sum, gap, turned, mixed, product };

/* Their addresses stand nowhere in the data before the run. */
static operation *chosen[4];

static __attribute__((noinline)) word folded(operation *by, const word *numbers, int count, word first)
{
    for (int i = 0; i < count; i++)
        first = by(first, numbers[i]);
    return first;
}

static __attribute__((noinline)) void choose(word state)
{
    for (int i = 0; i < 4; i++)
        chosen[i] = drawn(&state) & 1 ? least : joined;
}

int main(void)
{
    static const word numbers[6] = { 5, 1000003, 77, 4294967295u, 12, 305419896 };
    static const byte order[12] = { 0, 4, 1, 3, 2, 0, 1, 4, 2, 3, 0, 4 };
    word value = 1, state = 99;
    for (int i = 0; i < 5; i++)
        results[i] = table[i](numbers[i], numbers[i + 1]);
    for (int i = 0; i < 12; i++)
        value = table[order[i]](value, numbers[i >> 1]);
    results[5] = value;
    results[6] = folded(sum, numbers, 6, 0);
    results[7] = folded(gap, numbers, 6, 9);
    results[8] = folded(mixed, numbers, 6, 4042322160u);
    choose(state);
    for (int i = 0; i < 4; i++)
        results[9 + i] = folded(chosen[i], numbers, i + 3, 2000);
    return 0;
}
