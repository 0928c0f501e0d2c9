/* Printing and stopping on the machines of qemu: by semihosting on a Cortex-M, by the serial port and the test device of "virt" on RISC-V. */
#include "board.h"

#ifdef __arm__

static void ask_host(int what, const void *argument)
{
    register int number __asm__("r0") = what;
    register const void *given __asm__("r1") = argument;
    __asm__ volatile("bkpt 0xab" : "+r"(number) : "r"(given) : "memory");
}

void board_say(const char *text)
{
    ask_host(0x04, text);
}

_Noreturn void board_stop(int status)
{
    /* 0x20026 is a normal end, 0x20023 a fault; semihosting on 32 bits has no other status */
    ask_host(0x18, (const void *)(uintptr_t)(status == 0 ? 0x20026 : 0x20023));
    for (;;) {
    }
}

#else

void board_say(const char *text)
{
    volatile uint8_t *const serial_port = (volatile uint8_t *)0x10000000u;
    while (*text) {
        *serial_port = (uint8_t)*text++;
    }
}

_Noreturn void board_stop(int status)
{
    volatile uint32_t *const test_device = (volatile uint32_t *)0x100000u;
    *test_device = status == 0 ? 0x5555u : 0x13333u;
    for (;;) {
    }
}

#endif
