/* What start-up has in common on all bare boards (board.h). */
#include "board.h"

#define PAINT 0xa5a5a5a5u

/* From the linker script: where initial values lie in ROM, where they belong, and what begins as zero. */
extern uint32_t board_data_rom[], board_data[], board_data_end[], board_bss[], board_bss_end[];

int main(void);

/* Paints the stack below the frame of this function. */
static void paint_stack(void)
{
    volatile uint32_t *at = board_stack;
    const uintptr_t here = (uintptr_t)__builtin_frame_address(0);
    while ((uintptr_t)at < here - BOARD_GUARD) {
        *at++ = PAINT;
    }
}

_Noreturn void board_start(void)
{
    const uint32_t *from = board_data_rom;
    for (uint32_t *to = board_data; to < board_data_end;) {
        *to++ = *from++;
    }
    for (uint32_t *to = board_bss; to < board_bss_end;) {
        *to++ = 0;
    }
    paint_stack();
    const int status = main();
    board_check_stack();
    board_stop(status);
}

size_t board_stack_unused(void)
{
    const volatile uint32_t *at = board_stack;
    while (at < board_stack_top && *at == PAINT) {
        at++;
    }
    return (size_t)((uintptr_t)at - (uintptr_t)board_stack);
}

static _Noreturn void too_small(void)
{
    board_say("FAILED: the stack is too small.\n");
    board_stop(1);
}

void board_check_stack(void)
{
    if (board_stack_unused() < BOARD_GUARD) {
        too_small();
    }
}

_Noreturn void board_fault(uintptr_t stack_pointer)
{
    if (stack_pointer < (uintptr_t)board_stack + BOARD_GUARD || board_stack_unused() < BOARD_GUARD) {
        too_small();
    }
    board_say("FAILED: a fault that is not the stack's.\n");
    board_stop(1);
}
