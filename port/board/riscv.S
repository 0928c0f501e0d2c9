/* Start-up of a bare RISC-V in machine mode: the stack, what a fault does, and a guard below the stack where the processor has physical memory protection. */
    .option arch, +zicsr
    .section .text.board_entry, "ax"
    .globl board_entry
board_entry:
    .option push
    .option norelax
    la gp, __global_pointer$
    .option pop
    la sp, board_stack_top

    /* The 64 KB below the stack may not be used. A processor without the protection traps here, and goes on at board_run. */
    la t0, board_run
    csrw mtvec, t0
    la t0, board_stack
    srli t1, t0, 2
    csrw pmpaddr1, t1
    li t1, 65536
    sub t0, t0, t1
    srli t0, t0, 2
    csrw pmpaddr0, t0
    li t0, 0x8800
    csrw pmpcfg0, t0

    .balign 4
board_run:
    la t0, board_enter_fault
    csrw mtvec, t0
    j board_start

    /* A fault may come from a stack that has run out of RAM, so the handler takes the whole stack anew before it calls anything. */
    .balign 4
board_enter_fault:
    mv a0, sp
    la sp, board_stack_top
    j board_fault
