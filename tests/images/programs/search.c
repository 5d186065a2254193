/* Searching: by halves in a sorted table, along a list of links, and for a text in a text. */
#include "image.h"

enum { PLATES = 20, LINKS = 12 };

word results[RESULTS];

static const word plates[PLATES] = { 3, 17, 29, 130, 131, 132, 500, 777, 1024, 4095, 4096, 65535, 65536, 100000,
                                     1000000, 2147483647, 2147483648u, 3000000000u, 4294967290u, 4294967295u };

struct link {
    const struct link *next;
    short bay;
    signed char level;
};

static struct link links[LINKS];

static int by_halves(word wanted)
{
    int low = 0, high = PLATES;
    while (low < high) {
        int middle = (low + high) >> 1;
        if (plates[middle] < wanted)
            low = middle + 1;
        else
            high = middle;
    }
    return low < PLATES && plates[low] == wanted ? low : -1;
}

static const struct link *chain(void)
{
    const struct link *first = 0;
    for (int i = 0; i < LINKS; i++) {
        links[i].next = first;
        links[i].bay = (short)(100 - 16 * i);
        links[i].level = (signed char)(i - 6);
        first = &links[i];
    }
    return first;
}

static int along(const struct link *from, int bay)
{
    while (from && from->bay != bay)
        from = from->next;
    return from ? from->level : 99;
}

static int text_in(const char *text, const char *wanted)
{
    for (int at = 0; text[at]; at++) {
        int same = 0;
        while (wanted[same] && text[at + same] == wanted[same])
            same++;
        if (!wanted[same])
            return at;
    }
    return -1;
}

int main(void)
{
    static const word wanted[8] = { 3, 4294967295u, 131, 133, 2147483648u, 0, 65536, 4294967294u };
    const struct link *first = chain();
    for (int i = 0; i < 8; i++)
        results[i] = (word)by_halves(wanted[i]);
    results[8] = (word)along(first, 100);
    results[9] = (word)along(first, -76);
    results[10] = (word)along(first, 36);
    results[11] = (word)along(first, 37);
    results[12] = (word)text_in("level two, bay twenty-two", "twenty");
    results[13] = (word)text_in("level two, bay twenty-two", "two");
    results[14] = (word)text_in("level two, bay twenty-two", "three");
    results[15] = (word)text_in("aaab", "aab");
    return 0;
}
