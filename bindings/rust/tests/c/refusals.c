/* Prints what the headers say of refusals: a line for each number; before them the version. */
#include "lokhazim.h"

#include <stdio.h>

static void say(uint32_t refusal)
{
    printf("%u %s\n", (unsigned)refusal, lokhazim_refusal_text(refusal));
}

int main(void)
{
    printf("version %s %d.%d.%d\n",
           LOKHAZIM_VERSION, LOKHAZIM_VERSION_MAJOR, LOKHAZIM_VERSION_MINOR, LOKHAZIM_VERSION_PATCH);
    for (uint32_t number = 0; number <= 200; number++) {
        say(number);
    }
    say(UINT32_MAX);
    return 0;
}
