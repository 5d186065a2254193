/* What a lens over the bays sees, made smooth: filters in fixed point, of 15 and of 31 bits behind the point, with
 * rounding and with limits. */
#include "image.h"

enum { SAMPLES = 30, TAPS = 8 };

word results[RESULTS];
static short seen[SAMPLES], smooth[SAMPLES];

static int limited(signed_wide value, int low, int high)
{
    return value < low ? low : value > high ? high : (int)value;
}

static short near(const short *newest, const short *taps)
{
    signed_wide sum = 1 << 14;
    for (int i = 0; i < TAPS; i++)
        sum += taps[i] * newest[-i];
    return (short)limited(sum >> 15, -32768, 32767);
}

/* Two numbers of 31 bits behind the point, rounded. */
static int product(int a, int b)
{
    return (int)(((signed_wide)a * b + (1 << 30)) >> 31);
}

/* A filter of the second order, with 30 bits behind the point of its factors. */
struct filter {
    int ahead[3], back[2], in[2], out[2];
};

static APART int filtered(struct filter *f, int in)
{
    signed_wide sum = (signed_wide)f->ahead[0] * in + (signed_wide)f->ahead[1] * f->in[0]
                    + (signed_wide)f->ahead[2] * f->in[1] - (signed_wide)f->back[0] * f->out[0]
                    - (signed_wide)f->back[1] * f->out[1];
    int out = limited((sum + (1 << 29)) >> 30, -2147483647 - 1, 2147483647);
    f->in[1] = f->in[0];
    f->in[0] = in;
    f->out[1] = f->out[0];
    f->out[0] = out;
    return out;
}

/* Each step closes a part of the gap. */
static int followed(const short *from, int count, int part)
{
    int at = 0;
    for (int i = 0; i < count; i++)
        at += product(from[i] * 32768 - at, part);
    return at;
}

static signed_wide energy(const short *from, int count)
{
    signed_wide sum = 0;
    for (int i = 0; i < count; i++)
        sum += from[i] * from[i];
    return sum;
}

int main(void)
{
    static const short taps[TAPS] = { -1200, 3100, 9800, 16100, 15900, 9700, 3200, -1100 };
    static struct filter filter = { { 72429508, 144859016, 72429508 }, { -1227265969, 443242177 }, { 0 }, { 0 } };
    word state = 173205080, at_limit = 0, last = 0;
    for (int i = 0; i < SAMPLES; i++)
        seen[i] = (short)drawn(&state);
    for (int i = TAPS - 1; i < SAMPLES; i++) {
        smooth[i] = near(seen + i, taps);
        at_limit += smooth[i] == -32768 || smooth[i] == 32767;
    }
    for (int i = 0; i < 5; i++)
        results[i] = (word)smooth[SAMPLES - 1 - 5 * i];
    results[5] = at_limit;
    for (int i = 0; i < SAMPLES; i++) {
        last = (word)filtered(&filter, seen[i] * 65536);
        results[6 + (i & 3)] ^= last;
    }
    results[10] = last;
    results[11] = (word)followed(seen, SAMPLES, 429496730);
    results[12] = (word)followed(smooth, SAMPLES, 1288490189);
    put_wide(results + 13, (wide)energy(smooth, SAMPLES));
    results[15] = (word)product(-2147483647 - 1, 2147483647);
    return 0;
}
