/* The start of the import program, and its two system calls. */
#include "calls.h"

        .set    noreorder
        .section .start, "ax"
        .globl  _start
_start:
        la      $sp, JOB - 16           # the stack's end; 16 bytes for main's own arguments
        jal     main
        nop
        li      $2, END
        syscall

        .text
        .globl  print
        .ent    print
print:
        li      $2, PRINT
        syscall
        jr      $31
        nop
        .end    print
