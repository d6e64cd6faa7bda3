/* The start of ticks.c. */
        .set    noreorder
        .section .start, "ax"
        .globl  _start
        .ent    _start
_start:
        la      $sp, 0x2000FFF0
        jal     main
        nop
        .end    _start
