/* A bare board: how a program starts there, how much of its stack it has used, and how it notices a stack that is too small. */
#ifndef BOARD_H
#define BOARD_H

#include <stddef.h>
#include <stdint.h>

/* So many bytes at the lower end of the stack have to stay unused. */
#define BOARD_GUARD 64

/* From the linker script: the stack lies at the lowest address of RAM, so that what runs off its end meets no other data. */
extern uint32_t board_stack[], board_stack_top[];

/* The bytes of the stack that were never used so far. */
size_t board_stack_unused(void);

/* Stops the program with a sentence if the stack was used up to its last BOARD_GUARD bytes. To be called now and then, such as once in a main loop. */
void board_check_stack(void);

/* What start-up code calls: sets up memory and stack, runs main and stops. */
_Noreturn void board_start(void);

/* What a fault ends in, with the stack pointer at the fault: says whether the stack was too small, and stops. */
_Noreturn void board_fault(uintptr_t stack_pointer);

/* To be written for each board (qemu.c is for the machines of qemu): print a text; stop, with 0 where all is well. */
void board_say(const char *text);
_Noreturn void board_stop(int status);

#endif
