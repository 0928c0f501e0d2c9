/* What the programs of the tests share. */
#ifndef CROSS_H
#define CROSS_H

#include "lokhazim.h"

/* The refusals 0 to 12. */
#define REFUSALS 13

/* What a run of calls gave: two sums over every answer, heap byte and number of the accounts, how often each refusal was given, and
 * which refusals of images, 21 to 28 from bit 0 on, and of queues, 51 to 53 from bit 8 on. */
struct outcome {
    uint32_t sums[2];
    uint32_t calls;
    uint32_t tally[REFUSALS];
    uint32_t others;
};

/* Makes so many calls on a heap and its accounts, some of them damaged. It is the same run on every processor. */
struct outcome cross(uint32_t calls);

/* Writes the outcome, or a number, as text into `line`, which has LINE bytes. */
#define LINE 256
void outcome_text(char *line, const struct outcome *outcome);
void number_text(char *line, uint32_t number);

#endif
