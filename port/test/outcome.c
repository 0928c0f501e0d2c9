/* An outcome as a line of text, without a C library. */
#include "cross.h"

static char *put(char *at, const char *text)
{
    while (*text) {
        *at++ = *text++;
    }
    return at;
}

static char *put_number(char *at, uint32_t number, uint32_t base, int digits)
{
    char reversed[12];
    int n = 0;
    do {
        reversed[n++] = "0123456789abcdef"[number % base];
        number /= base;
    } while (number != 0 || n < digits);
    while (n > 0) {
        *at++ = reversed[--n];
    }
    return at;
}

void outcome_text(char *line, const struct outcome *outcome)
{
    line = put_number(line, outcome->sums[0], 16, 8);
    line = put_number(line, outcome->sums[1], 16, 8);
    line = put(line, " calls ");
    line = put_number(line, outcome->calls, 10, 1);
    line = put(line, " refusals");
    for (int i = 0; i < REFUSALS; i++) {
        line = put(line, " ");
        line = put_number(line, outcome->tally[i], 10, 1);
    }
    line = put(line, " others ");
    line = put_number(line, outcome->others, 16, 3);
    *line = 0;
}

void number_text(char *line, uint32_t number)
{
    *put_number(line, number, 10, 1) = 0;
}
