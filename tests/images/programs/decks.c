/* Decks with corners on both sides of the stairs: areas, turns by matrices, determinants and a curve, all by products
 * of either sign with sums of 64 bits. */
#include "image.h"

enum { CORNERS = 9, ORDER = 4 };

word results[RESULTS];

struct corner {
    int across, along;
};

static struct corner corners[CORNERS];
static int entries[ORDER][ORDER];

/* Twice the area, below 0 where the corners go round by the right. */
static signed_wide area(const struct corner *at, int count)
{
    signed_wide sum = 0;
    for (int i = 0; i < count; i++) {
        const struct corner *next = i + 1 < count ? &at[i + 1] : &at[0];
        sum += (signed_wide)at[i].across * next->along - (signed_wide)next->across * at[i].along;
    }
    return sum;
}

/* The greatest square of a way between two corners. */
static signed_wide longest(const struct corner *at, int count)
{
    signed_wide most = 0;
    for (int i = 0; i < count; i++)
        for (int j = 0; j < i; j++) {
            int across = at[i].across - at[j].across, along = at[i].along - at[j].along;
            signed_wide square = (signed_wide)across * across + (signed_wide)along * along;
            most = square > most ? square : most;
        }
    return most;
}

/* By the rows from the given one on, and the columns that are not taken yet. */
static signed_wide determinant(int row, word taken)
{
    signed_wide sum = 0;
    int sign = 1;
    if (row == ORDER)
        return 1;
    for (int column = 0; column < ORDER; column++) {
        if (taken >> column & 1)
            continue;
        sum += sign * entries[row][column] * determinant(row + 1, taken | 1u << column);
        sign = -sign;
    }
    return sum;
}

/* By three parts in five and four in five, with 30 bits behind the point. */
static void turn(struct corner *c)
{
    const int cosine = 644245094, sine = 858993459;
    signed_wide across = (signed_wide)cosine * c->across - (signed_wide)sine * c->along;
    signed_wide along = (signed_wide)sine * c->across + (signed_wide)cosine * c->along;
    c->across = (int)(across >> 30);
    c->along = (int)(along >> 30);
}

static APART signed_wide curve(int at)
{
    static const short parts[5] = { 3, -14, 159, -2653, 5897 };
    signed_wide value = 0;
    for (int i = 0; i < 5; i++)
        value = value * at + parts[i];
    return value;
}

int main(void)
{
    word state = 141421356;
    for (int i = 0; i < CORNERS; i++) {
        corners[i].across = (int)drawn(&state) >> 3;
        corners[i].along = (int)drawn(&state) >> 3;
    }
    for (int i = 0; i < ORDER * ORDER; i++)
        entries[i >> 2][i & 3] = (int)drawn(&state) >> 18;
    put_wide(results, (wide)area(corners, CORNERS));
    put_wide(results + 2, (wide)area(corners, 3));
    put_wide(results + 4, (wide)longest(corners, CORNERS));
    put_wide(results + 6, (wide)determinant(0, 0));
    for (int i = 0; i < CORNERS; i++) {
        turn(&corners[i]);
        turn(&corners[i]);
    }
    put_wide(results + 8, (wide)area(corners, CORNERS));
    results[10] = (word)corners[4].across;
    results[11] = (word)corners[4].along;
    put_wide(results + 12, (wide)curve(-4097));
    put_wide(results + 14, (wide)curve(4099));
    return 0;
}
