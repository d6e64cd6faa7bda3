/* The start of every program, and its two calls of the system (Linux o32). */

        .set    noreorder

        .section .start, "ax"
        .globl  _start
_start:
        la      $sp, stack_top
        jal     main
        nop
        move    $4, $2
        li      $2, 4001                # exit
        syscall
1:      b       1b
        nop

        .text
        .globl  write_out
        .ent    write_out
write_out:
        move    $6, $5
        move    $5, $4
        li      $4, 1
        li      $2, 4004                # write
        syscall
        jr      $31
        nop
        .end    write_out

        .bss
        .align  4
        .space  16384
stack_top:
        .space  32
