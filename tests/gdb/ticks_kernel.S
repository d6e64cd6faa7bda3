/* The execution ROM of ticks.c: the handler counts, and sets the timer again. */
        .set    noreorder
        .set    noat
        .text
        .globl  _start
_start: b       _start
        nop
        .org    0x80
        .globl  handler
        .ent    handler
handler:
        lui     $26, 0x2000
        ori     $26, $26, 0x2000
        lw      $27, 0($26)
        nop
        addiu   $27, $27, 1
        sw      $27, 0($26)
        lui     $26, 0x1000
        li      $27, 300
        sw      $27, 0x20($26)
        mfc0    $27, $14
        nop
        jr      $27
        rfe
        .end    handler
