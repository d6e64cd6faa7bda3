/* The bootstrap ROM of ticks.c: a timer interrupt every 300 steps. */
        .set    noreorder
        .text
        .globl  _start
        .ent    _start
_start:
        lui     $26, 0x1000
        li      $27, 300
        sw      $27, 0x20($26)          # timer
        li      $26, 0x401              # IEc, IM[2]; BEV 0
        mtc0    $26, $12
        la      $26, 0x20001000
        jr      $26
        nop
        .end    _start
