/* Start-up of a bare Cortex-M: the vectors, a guard below the stack where the processor has memory protection, and what a fault does. */
#include "board.h"

/* The bytes below the stack that are guarded, a power of two. */
#define GUARDED 65536u

void board_enter_fault(void);
_Noreturn void board_enter(void);

/*
 * The bytes below the stack may not be used, if the processor has the memory protection unit of the Cortex-M0+, M3, M4 or M7 and the stack begins at a
 * multiple of so many. The unit's registers are type, control, region number, base, and size with access; anything else may be used as without it.
 */
static void guard_stack(void)
{
    volatile uint32_t *const unit = (volatile uint32_t *)0xE000ED90u;
    const uint32_t base = (uint32_t)(uintptr_t)board_stack - GUARDED;
    if ((unit[0] & 0xFF00u) == 0 || base % GUARDED != 0) {
        return;
    }
    unit[2] = 0;
    unit[3] = base;
    unit[4] = ((uint32_t)__builtin_ctz(GUARDED) - 1u) << 1 | 1u;
    unit[1] = 5u;
    __asm__ volatile("dsb\n\tisb" ::: "memory");
}

/* Where the board starts. */
_Noreturn void board_enter(void)
{
    guard_stack();
    board_start();
}

/* A fault may come from a stack that has run out of RAM, so the handler takes the whole stack anew before it calls anything. */
__attribute__((naked)) void board_enter_fault(void)
{
    __asm__ volatile("mov r0, sp\n\t"
                     "ldr r1, =board_stack_top\n\t"
                     "mov sp, r1\n\t"
                     "bl board_fault\n\t"
                     ".ltorg");
}

/* The first word is the stack's upper end, the next the address at which the board starts; then NMI and the faults. */
__attribute__((section(".vectors"), used)) static const void *const vectors[16] = {
    board_stack_top,           (const void *)board_enter,       (const void *)board_enter_fault, (const void *)board_enter_fault,
    (const void *)board_enter_fault, (const void *)board_enter_fault, (const void *)board_enter_fault
};
