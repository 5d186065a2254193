/* String work: lengths, order, capitals, turning round, numbers to text and back. */
#include "image.h"

word results[RESULTS];
static char room[96];

static word length(const char *text)
{
    const char *end = text;
    while (*end)
        end++;
    return (word)(end - text);
}

static int order(const char *one, const char *other)
{
    for (; *one && *one == *other; one++)
        other++;
    return (byte)*one - (byte)*other;
}

static char *append(char *to, const char *text)
{
    while ((*to = *text++))
        to++;
    return to;
}

static void capitals(char *text)
{
    for (; *text; text++)
        if (*text >= 'a' && *text <= 'z')
            *text = (char)(*text - 32);
}

static void turn_round(char *first, char *last)
{
    while (first < last) {
        char kept = *first;
        *first++ = *last;
        *last-- = kept;
    }
}

static char *decimal(char *to, int number)
{
    static const word powers[] = { 1000000000, 100000000, 10000000, 1000000, 100000, 10000, 1000, 100, 10, 1 };
    word left = (word)number, begun = 0;
    if (number < 0) {
        *to++ = '-';
        left = 0 - left;
    }
    for (int i = 0; i < 10; i++) {
        char digit = '0';
        for (; left >= powers[i]; left -= powers[i])
            digit++;
        begun |= digit != '0' || i == 9;
        if (begun)
            *to++ = digit;
    }
    *to = 0;
    return to;
}

static int number_in(const char *text)
{
    word minus = *text == '-', value = 0;
    for (text += minus; *text >= '0' && *text <= '9'; text++)
        value = 10 * value + (word)(*text - '0');
    return (int)(minus ? 0 - value : value);
}

static word mixture(const char *text)
{
    word value = 5381;
    while (*text)
        value = 33 * value + (byte)*text++;
    return value;
}

int main(void)
{
    char *end = append(room, "bay ");
    end = decimal(end, 2046);
    end = append(end, ", level ");
    end = decimal(end, -3);
    end = append(end, ", \xE9t\xE9 ");
    end = decimal(end, -2147483647 - 1);
    results[0] = length(room);
    results[1] = mixture(room);
    capitals(room);
    results[2] = mixture(room);
    turn_round(room, end - 1);
    results[3] = mixture(room);
    results[4] = (word)order("bay 9", "bay 10");
    results[5] = (word)order("bay", "bay 1");
    results[6] = (word)order("same", "same");
    results[7] = (word)order("\xE9", "e");
    results[8] = (word)number_in("-2147483648");
    results[9] = (word)number_in("1234567 and more");
    results[10] = (word)number_in("none");
    results[11] = (word)room[0] << 24 | (word)room[1] << 16 | (word)room[2] << 8 | (byte)room[3];
    return 0;
}
