/* Sorting: words as a heap, signed bytes by insertion, half words by Shell's gaps. */
#include "image.h"

enum { WORDS = 24, BYTES = 16, HALVES = 20 };

word results[RESULTS];
static word words[WORDS];
static signed char bytes[BYTES];
static unsigned short halves[HALVES];

static void sift(word root, word count)
{
    word moved = words[root];
    for (;;) {
        word child = root + root + 1;
        if (child >= count)
            break;
        if (child + 1 < count && words[child + 1] > words[child])
            child++;
        if (words[child] <= moved)
            break;
        words[root] = words[child];
        root = child;
    }
    words[root] = moved;
}

static void sort_words(void)
{
    for (word root = WORDS / 2; root-- > 0;)
        sift(root, WORDS);
    for (word count = WORDS - 1; count > 0; count--) {
        word largest = words[0];
        words[0] = words[count];
        words[count] = largest;
        sift(0, count);
    }
}

static void sort_bytes(void)
{
    for (int i = 1; i < BYTES; i++) {
        signed char moved = bytes[i];
        int at = i;
        for (; at > 0 && bytes[at - 1] > moved; at--)
            bytes[at] = bytes[at - 1];
        bytes[at] = moved;
    }
}

static void sort_halves(void)
{
    for (int gap = 8; gap > 0; gap >>= 1)
        for (int i = gap; i < HALVES; i++) {
            unsigned short moved = halves[i];
            int at = i;
            for (; at >= gap && halves[at - gap] > moved; at -= gap)
                halves[at] = halves[at - gap];
            halves[at] = moved;
        }
}

int main(void)
{
    word state = 2463534242u;
    for (int i = 0; i < WORDS; i++)
        words[i] = drawn(&state);
    for (int i = 0; i < BYTES; i++)
        bytes[i] = (signed char)drawn(&state);
    for (int i = 0; i < HALVES; i++)
        halves[i] = (unsigned short)drawn(&state);
    sort_words();
    sort_bytes();
    sort_halves();
    for (int i = 0; i < 6; i++)
        results[i] = words[4 * i];
    for (int i = 0; i < 5; i++)
        results[6 + i] = (word)bytes[3 * i];
    for (int i = 0; i < 5; i++)
        results[11 + i] = halves[4 * i];
    return 0;
}
