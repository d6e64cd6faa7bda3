/*
 * The arithmetic loop of src/loops.rs for gxemul's test machine: COUNT times
 * round, fifteen steps each, then its halt.
 */
        .set    noreorder
        .set    noat
        .globl  _start
_start:
        li      $20, COUNT
        move    $8, $0
        move    $9, $0
1:      addiu   $8, $8, 1
        addu    $9, $9, $8
        xor     $10, $9, $8
        srl     $11, $10, 5
        sltu    $12, $11, $9
        subu    $13, $10, $12
        mult    $13, $8
        sra     $14, $13, 7
        or      $15, $14, $11
        mflo    $24
        sllv    $25, $24, $8
        andi    $2, $25, 0x7ff
        addu    $9, $9, $2
        bne     $8, $20, 1b
        nor     $3, $2, $15
        lui     $4, 0xB000
        sb      $0, 0x10($4)
2:      b       2b
        nop
