/* Makes the calls (port/test/cross.c) where there is a C library. */
#include "cross.h"

#include <stdio.h>

int main(void)
{
    char line[LINE];
    const struct outcome outcome = cross(CALLS);
    outcome_text(line, &outcome);
    puts(line);
    return 0;
}
