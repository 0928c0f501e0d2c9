/* A bare Cortex-M: 256 KB of flash at 0, 64 KB of RAM. Set both to your board's. STACK: --defsym=STACK=BYTES, a multiple of 8. */
MEMORY
{
    FLASH (rx) : ORIGIN = 0x00000000, LENGTH = 256K
    RAM (rwx) : ORIGIN = 0x20000000, LENGTH = 64K
}

SECTIONS
{
    .text : { KEEP(*(.vectors)) *(.text .text.*) *(.rodata .rodata.*) . = ALIGN(4); } > FLASH
    .ARM.exidx : { *(.ARM.exidx* .gnu.linkonce.armexidx.*) . = ALIGN(4); } > FLASH

    /* The stack is the first of RAM, so that it runs into no data, but out of RAM, which cortex-m.c makes a fault where it can. */
    .stack (NOLOAD) : { board_stack = .; . += STACK; board_stack_top = .; } > RAM
    .data : { board_data = .; *(.data .data.*) . = ALIGN(4); board_data_end = .; } > RAM AT > FLASH
    board_data_rom = LOADADDR(.data);
    .bss (NOLOAD) : { board_bss = .; *(.bss .bss.*) *(COMMON) . = ALIGN(4); board_bss_end = .; } > RAM
}
ASSERT(STACK % 8 == 0, "STACK is no multiple of 8")
