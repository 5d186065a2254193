/* Formulas worked out as they are read: functions that call each other and return a record of a number and what is left
 * of the text. */
#include "image.h"

enum { FORMULAS = 10 };

struct value {
    word number;
    const char *rest;
};

word results[RESULTS];

static const char *const formulas[FORMULAS] = {
    "7", "1+2*3", "(1+2)*3", "-5-(2-9)", "2*3*5*7*11*13", "1-(2-(3-4))", "65536*65536-1", "(7-10)*(7-10)*-1",
    "12*(34+56)-78*(9+1)", "4294967295+2",
};

static APART struct value sum(const char *text);

static APART struct value digits(const char *text)
{
    word number = 0;
    for (; *text >= '0' && *text <= '9'; text++)
        number = 10 * number + (word)(*text - '0');
    return (struct value){ number, text };
}

static APART struct value factor(const char *text)
{
    struct value value;
    if (*text == '-') {
        value = factor(text + 1);
        return (struct value){ -value.number, value.rest };
    }
    if (*text != '(')
        return digits(text);
    value = sum(text + 1);
    return (struct value){ value.number, value.rest + 1 };
}

static APART struct value term(const char *text)
{
    struct value value = factor(text);
    while (*value.rest == '*') {
        struct value other = factor(value.rest + 1);
        value = (struct value){ value.number * other.number, other.rest };
    }
    return value;
}

static APART struct value sum(const char *text)
{
    struct value value = term(text);
    while (*value.rest == '+' || *value.rest == '-') {
        struct value other = term(value.rest + 1);
        value.number += *value.rest == '+' ? other.number : -other.number;
        value.rest = other.rest;
    }
    return value;
}

int main(void)
{
    word lengths = 0;
    for (int i = 0; i < FORMULAS; i++) {
        struct value value = sum(formulas[i]);
        results[i] = value.number;
        lengths = (lengths << 3 | lengths >> 29) + (word)(value.rest - formulas[i]);
    }
    results[FORMULAS] = lengths;
    results[FORMULAS + 1] = digits("20460").number + factor("-60").number;
    return 0;
}
