/* A bare 32-bit RISC-V: code at 0x80000000, where qemu's machine "virt" starts, and 256 KB of RAM. Set both to your board's.
   STACK: --defsym=STACK=BYTES, a multiple of 16. */
ENTRY(board_entry)
MEMORY
{
    ROM (rx) : ORIGIN = 0x80000000, LENGTH = 256K
    RAM (rwx) : ORIGIN = 0x80100000, LENGTH = 256K
}

SECTIONS
{
    .text : { KEEP(*(.text.board_entry)) *(.text .text.*) *(.rodata .rodata.* .srodata .srodata.*) . = ALIGN(4); } > ROM

    /* The stack is the first of RAM, so that it runs into no data; riscv.S guards what lies below it. */
    .stack (NOLOAD) : { board_stack = .; . += STACK; board_stack_top = .; } > RAM
    .data : { board_data = .; *(.data .data.*) __global_pointer$ = . + 0x800; *(.sdata .sdata.*) . = ALIGN(4); board_data_end = .; } > RAM AT > ROM
    board_data_rom = LOADADDR(.data);
    .bss (NOLOAD) : { board_bss = .; *(.sbss .sbss.*) *(.bss .bss.*) *(COMMON) . = ALIGN(4); board_bss_end = .; } > RAM
}
ASSERT(STACK % 16 == 0, "STACK is no multiple of 16")
