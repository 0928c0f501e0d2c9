/* Makes the calls (port/test/cross.c) on a bare board, and says how much of the stack was used. */
#include "board.h"
#include "cross.h"

static char line[LINE];

int main(void)
{
    const struct outcome outcome = cross(CALLS);
    board_check_stack();
    outcome_text(line, &outcome);
    board_say(line);
    number_text(line, (uint32_t)((uintptr_t)board_stack_top - (uintptr_t)board_stack - board_stack_unused()));
    board_say("\nstack ");
    board_say(line);
    board_say("\n");
    return 0;
}
