/* What stays cost: fractions by products, as a core divides that has no word for it; and the words that gcc does not
 * make of C, the flag forms and wr. */
#include "image.h"

enum { STAYS = 10 };

word results[RESULTS];

/* Each is exact for all words: the product's high word has the quotient. */
static word tenth(word number)
{
    return (word)((wide)number * 0xCCCCCCCDu >> 35);
}

static word hundredth(word number)
{
    return (word)((wide)number * 0x51EB851Fu >> 37);
}

static word hours(word minutes)
{
    return (word)((wide)minutes * 0x88888889u >> 37);
}

/* Toward 0. */
static APART int seventh(int number)
{
    int high = (int)((signed_wide)number * -1840700269 >> 32);
    return ((high + number) >> 2) + (number < 0);
}

/* The digits from the last on, four bits each. */
static APART word digits(word number)
{
    word shown = 0;
    for (int at = 0; number && at < 32; at += 4) {
        word rest = tenth(number);
        shown |= (number - 10 * rest) << at;
        number = rest;
    }
    return shown;
}

/* 115 cents for each hour begun, of which 21 in a hundred go to the town. */
static word fee(word minutes, word *town)
{
    word cents = 115 * hours(minutes + 59);
    *town += hundredth(21 * cents + 50);
    return cents;
}

/* With 16 bits behind the point: 3 in a hundred more each year. */
static APART wide grown(wide amount, int years)
{
    while (years-- > 0)
        amount = amount * 67502 >> 16;
    return amount;
}

/* How often the low word of a product of such a chain has its top bit set; it ends at 0. */
static APART word signs(int factor)
{
    int value = factor, negative = 0;
    for (int i = 0; value && i < 40; i++)
        __asm__("smulcc %0, %2, %0\n\tbneg,a 1f\n\t add %1, 1, %1\n1:"
                : "+&r"(value), "+&r"(negative) : "r"(factor) : "cc");
    return (word)negative;
}

/* As a routine does that breaks in on others: it leaves Y as it was, which is the high word of a and b. */
static APART word kept(word a, word b)
{
    word high, low;
    __asm__("umulcc %2, %3, %1\n\tbe 1f\n\t rd %%y, %0\n\tumul %1, %3, %1\n\twr %0, %%g0, %%y\n1:\trd %%y, %0"
            : "=&r"(high), "=&r"(low) : "r"(a), "r"(b) : "cc");
    return high ^ low;
}

/* Wr is an xor too, with a register or a constant. */
static APART word mixed(word a, word b)
{
    word y;
    __asm__("wr %1, %2, %%y\n\trd %%y, %0\n\twr %0, -1366, %%y\n\trd %%y, %0" : "=&r"(y) : "r"(a), "r"(b));
    return y;
}

int main(void)
{
    word state = 223606797, town = 0, sum = 0;
    for (int i = 0; i < STAYS; i++)
        sum += fee(drawn(&state) & 4095, &town);
    results[0] = sum;
    results[1] = town;
    results[2] = digits(sum);
    results[3] = digits(4294967295u) ^ hours(4294967295u);
    results[4] = (word)seventh(-2147483647 - 1);
    results[5] = (word)seventh(2147483647);
    results[6] = (word)seventh((int)drawn(&state));
    put_wide(results + 7, grown(sum, 30));
    results[9] = signs(-3);
    results[10] = signs(1 << 9 | 1 << 5);
    results[11] = kept(drawn(&state), 4042322161u);
    results[12] = kept(1 << 16, 1 << 16);
    results[13] = mixed(state, sum);
    results[14] = hundredth(4294967295u);
    return 0;
}
