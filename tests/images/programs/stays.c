/* Stays in a car park as records of days, hours and minutes: functions that return records, in loops and one inside
 * another. */
#include "copy.h"
#include "image.h"

enum { STAYS = 12 };

struct stay {
    word days, hours, minutes;
};

/* How often a number goes into another, and what is left. */
struct split {
    word times, left;
};

word results[RESULTS];

static APART struct split divided(word number, word by)
{
    struct split split = { 0, number };
    for (int i = 20; i >= 0; i--)
        if (split.left >= by << i) {
            split.left -= by << i;
            split.times |= 1u << i;
        }
    return split;
}

static APART struct stay stay_of(word minutes)
{
    struct split hours = divided(minutes, 60), days = divided(hours.times, 24);
    return (struct stay){ days.times, days.left, hours.left };
}

static word minutes_of(const struct stay *stay)
{
    return 60 * (24 * stay->days + stay->hours) + stay->minutes;
}

static APART struct stay sum(struct stay a, struct stay b)
{
    return stay_of(minutes_of(&a) + minutes_of(&b));
}

static APART struct stay longer(struct stay a, struct stay b)
{
    return minutes_of(&a) < minutes_of(&b) ? b : a;
}

static APART struct stay half(struct stay a)
{
    return stay_of(minutes_of(&a) >> 1);
}

static void put(word *at, struct stay stay)
{
    at[0] = stay.days;
    at[1] = stay.hours;
    at[2] = stay.minutes;
}

int main(void)
{
    struct stay stays[STAYS], total = { 0, 0, 0 }, longest = { 0, 0, 0 };
    word state = 161803398;
    for (int i = 0; i < STAYS; i++) {
        stays[i] = stay_of(drawn(&state) & 4095);
        total = sum(total, stays[i]);
        longest = longer(stays[i], longest);
    }
    put(results, total);
    put(results + 3, longest);
    put(results + 6, sum(half(sum(stays[0], stays[1])), half(sum(stays[2], stays[3]))));
    put(results + 9, longer(half(longest), longer(stays[4], half(half(total)))));
    results[12] = divided(minutes_of(&total), STAYS).times;
    results[13] = divided(minutes_of(&total), STAYS).left;
    return 0;
}
