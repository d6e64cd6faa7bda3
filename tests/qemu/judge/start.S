/* Entry point and system calls of the judge (Linux o32). */

        .set    noreorder
        .text

        .globl  _start
        .ent    _start
_start:
        la      $sp, stack_top
        jal     judge
        nop
        .end    _start

/* long system_call(number, a, b, c, d, e, f): d to f are on the caller's
   stack at 16, 20 and 24 and go where the kernel looks for them. */
        .globl  system_call
        .ent    system_call
system_call:
        addiu   $sp, $sp, -32
        move    $2, $4
        move    $4, $5
        move    $5, $6
        move    $6, $7
        lw      $7, 48($sp)
        lw      $8, 52($sp)
        lw      $9, 56($sp)
        sw      $8, 16($sp)
        sw      $9, 20($sp)
        syscall
        beqz    $7, 1f
        nop
        negu    $2, $2
1:
        jr      $ra
        addiu   $sp, $sp, 32
        .end    system_call

        .bss
        .align  4
        .space  65536
stack_top:
        .space  64
