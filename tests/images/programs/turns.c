/* Ways through a deck: functions that return records, called through a table, through an argument and through a pointer
 * that the record before it brought along. */
#include "image.h"

enum { MOVES = 40, BENDS = 20 };

struct point {
    int across, along;
};

struct box {
    struct point low, high;
};

typedef struct point movement(struct point, int);

/* A point on the way, and how it goes on from there. */
struct way {
    struct point at;
    int left;
    struct way (*next)(struct way);
};

word results[RESULTS];

static struct point ahead(struct point p, int by)
{
    return (struct point){ p.across, p.along + by };
}

static struct point aside(struct point p, int by)
{
    return (struct point){ p.across - by, p.along };
}

static struct point turned(struct point p, int by)
{
    return by & 1 ? (struct point){ -p.along, p.across } : (struct point){ p.along, -p.across };
}

static struct point mirrored(struct point p, int by)
{
    return by & 1 ? (struct point){ -p.across, p.along } : (struct point){ p.across, -p.along };
}

static movement *const table[] = { ahead, aside, turned, mirrored };

static APART struct point twice(movement *by, struct point p, int amount)
{
    return by(by(p, amount), amount + 1);
}

static APART struct box around(struct box box, struct point p)
{
    if (p.across < box.low.across)
        box.low.across = p.across;
    if (p.across > box.high.across)
        box.high.across = p.across;
    if (p.along < box.low.along)
        box.low.along = p.along;
    if (p.along > box.high.along)
        box.high.along = p.along;
    return box;
}

/* Up and down the ramps: each says which of the two comes next. */
static struct way up(struct way way);

static struct way down(struct way way)
{
    return (struct way){ twice(aside, way.at, way.left), way.left - 2, up };
}

static struct way up(struct way way)
{
    return (struct way){ ahead(way.at, way.left), way.left - 1, way.left & 4 ? up : down };
}

static void put(word *at, struct point p)
{
    at[0] = (word)p.across;
    at[1] = (word)p.along;
}

int main(void)
{
    struct point p = { 0, 0 };
    struct box box = { { 0, 0 }, { 0, 0 } };
    struct way way = { { 100, -100 }, BENDS, up };
    word state = 271828182;
    for (int i = 0; i < MOVES; i++) {
        word number = drawn(&state);
        p = table[number & 3](p, (int)(number >> 2 & 31));
        box = around(box, p);
    }
    put(results, p);
    put(results + 2, box.low);
    put(results + 4, box.high);
    for (int i = 0; i < 4; i++)
        put(results + 6 + 2 * i, twice(table[i], box.high, 5 + i));
    while (way.left > 0)
        way = way.next(way);
    put(results + 14, way.at);
    return 0;
}
