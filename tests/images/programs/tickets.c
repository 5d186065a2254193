/* Numbers of tickets: a generator of 64 bits, products modulo a prime and modulo another by Montgomery's way, and whole
 * products of 64 bits by 64. */
#include "image.h"

enum { TICKETS = 24 };

#define PRIME 0x7FFFFFFFu
#define MODULUS 4294967291u

word results[RESULTS];
static word tickets[TICKETS];

/* Knuth's generator; the upper half is the ticket. */
static word ticket(wide *state)
{
    *state = *state * 6364136223846793005u + 1442695040888963407u;
    return (word)(*state >> 32);
}

/* Modulo 2^31 - 1: what stands above 31 bits counts once more. */
static word times(word a, word b)
{
    wide product = (wide)a * b;
    word sum = (word)(product & PRIME) + (word)(product >> 31);
    return sum >= PRIME ? sum - PRIME : sum;
}

static APART word power(word base, word exponent)
{
    word result = 1;
    for (; exponent; exponent >>= 1) {
        if (exponent & 1)
            result = times(result, base);
        base = times(base, base);
    }
    return result;
}

/* What an odd number times this is 1 modulo 2^32: each turn doubles the bits that are right. */
static word inverse(word odd)
{
    word found = odd;
    for (int i = 0; i < 4; i++)
        found *= 2 - odd * found;
    return found;
}

/* a * b / 2^32 modulo the modulus; the sum may have a bit above 64. */
static APART word reduced(word a, word b, word negated)
{
    wide product = (wide)a * b, sum = product + (wide)((word)product * negated) * MODULUS;
    word high = (word)(sum >> 32);
    return sum < product || high >= MODULUS ? high - MODULUS : high;
}

static APART void whole_product(wide a, wide b, word *at)
{
    word above_a = (word)(a >> 32), above_b = (word)(b >> 32);
    wide low = (wide)(word)a * (word)b, one = (wide)above_a * (word)b + (low >> 32);
    wide other = (wide)(word)a * above_b + (word)one;
    put_wide(at, (wide)above_a * above_b + (one >> 32) + (other >> 32));
    put_wide(at + 2, other << 32 | (word)low);
}

int main(void)
{
    wide state = 20461116;
    word all = 0, product = 1, reduction = 1, negated = 0 - inverse(MODULUS);
    for (int i = 0; i < TICKETS; i++) {
        tickets[i] = ticket(&state);
        all ^= tickets[i];
    }
    for (int i = 0; i < TICKETS; i++) {
        product = times(product, tickets[i] >> 1 | 1);
        reduction = reduced(reduction, tickets[i], negated);
    }
    put_wide(results, state);
    results[2] = all;
    results[3] = product;
    results[4] = reduction;
    results[5] = power(7, tickets[0]);
    results[6] = power(product, PRIME - 2);
    results[7] = times(results[6], product);
    whole_product(state, ~state, results + 8);
    whole_product(0xFFFFFFFFFFFFFFFFu, 0xFFFFFFFFFFFFFFFFu, results + 12);
    return 0;
}
