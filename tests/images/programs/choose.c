/* A switch with a jump table: a machine with a stack that runs a small program, and another over letters. */
#include "image.h"

enum { PUSH, ADD, SUBTRACT, DOUBLE, HALVE, COPY, EXCHANGE, DROP, SKIP_IF_0, BACK, KEEP, FLIP, STOP };

word results[RESULTS];
static word kept;

/* Counts down from the number given, keeping a running mixture of what is left. */
static const byte program[] = { PUSH, 0, EXCHANGE, COPY, SKIP_IF_0, 13, COPY, KEEP, FLIP, PUSH, 1, SUBTRACT, EXCHANGE,
                                PUSH, 3, ADD, EXCHANGE, BACK, 15, DROP, DOUBLE, HALVE, STOP };

static word run(word first)
{
    word stack[8], top = 1, at = 0, other;
    stack[0] = first;
    for (;;) {
        switch (program[at++]) {
        case PUSH: stack[top++] = program[at++]; break;
        case ADD: top--; stack[top - 1] += stack[top]; break;
        case SUBTRACT: top--; stack[top - 1] -= stack[top]; break;
        case DOUBLE: stack[top - 1] <<= 1; break;
        case HALVE: stack[top - 1] = (word)((int)stack[top - 1] >> 1); break;
        case COPY: stack[top] = stack[top - 1]; top++; break;
        case EXCHANGE: other = stack[top - 1]; stack[top - 1] = stack[top - 2]; stack[top - 2] = other; break;
        case DROP: top--; break;
        case SKIP_IF_0: at += stack[--top] ? 1 : (word)program[at] + 1; break;
        case BACK: at -= program[at]; break;
        case KEEP: kept = 33 * kept + stack[--top]; break;
        case FLIP: kept = ~kept; break;
        case STOP: return stack[top - 1];
        default: return 0xBAD;
        }
    }
}

static __attribute__((noinline)) int weight(char letter)
{
    switch (letter) {
    case 'a': return 3;
    case 'b': kept += 11; return -7;
    case 'c': kept ^= 0x55; return 19;
    case 'd': return (int)kept & 15;
    case 'e': kept <<= 1; return 2;
    case 'f': kept >>= 2; return 1;
    case 'g': return -100;
    case 'h': kept = 1; return 40;
    default: return 0;
    }
}

int main(void)
{
    static const char letters[] = "abcdefgh zz hgfedcba A bad cafe";
    int total = 0;
    for (word i = 0; i < 6; i++) {
        kept = i;
        results[i] = run(i + i);
        results[6 + i] = kept;
    }
    kept = 7;
    for (const char *at = letters; *at; at++)
        total += weight(*at);
    results[12] = (word)total;
    results[13] = kept;
    return 0;
}
