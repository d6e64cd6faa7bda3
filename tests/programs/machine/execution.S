/*
 * The execution ROM: TLB misses, timer interrupts and system calls. $26 and
 * $27 are never a program's own.
 */
#include "mailbox.h"

        .set    noreorder
        .set    noat
        .text
        .globl  _start
_start:
        j       miss
        nop

        .org    0x80
        lui     $26, MAILBOX_HIGH
        sw      $8, SAVED_8($26)
        sw      $9, SAVED_9($26)
        mfc0    $8, $13
        srl     $8, $8, 2
        andi    $8, $8, 0x1F
        beq     $8, $0, tick
        addiu   $9, $0, 8
        beq     $8, $9, call
        nop
        /* Any other exception ends the program; the driver has stopped here. */
ended:  b       ended
        nop

tick:
        lw      $8, NEXT_PERIOD($26)
        lui     $9, 0x1000
        sw      $8, 0x20($9)
        /* Some entry gives way to one that is never looked for, so that
           programs of a few pages have misses too; for the sweep, all do. */
        mtc0    $0, $10
        tlbwr
        lw      $8, FLUSHED($26)
1:      beq     $8, $0, 2f
        addiu   $8, $8, -0x100
        mtc0    $8, $0
        b       1b
        tlbwi
2:      lw      $8, TICKS($26)
        nop
        addiu   $8, $8, 1
        b       return
        sw      $8, TICKS($26)

miss:
        lui     $26, MAILBOX_HIGH
        sw      $8, SAVED_8($26)
        sw      $9, SAVED_9($26)
        mfc0    $8, $10
        lw      $9, PAGE_FLIP($26)
        srl     $8, $8, 12
        sll     $8, $8, 12
        xor     $8, $8, $9
        ori     $8, $8, 0x600           # D and V
        mtc0    $8, $2
        tlbwr
        lw      $8, MISSES($26)
        nop
        addiu   $8, $8, 1
        sw      $8, MISSES($26)

        /* EPC is the place to go on from, also in a slot: the branch is run once
           more. A kernel that forgets it, for the test of the sweep itself, goes
           on in the slot. */
return:
        mfc0    $27, $14
        mfc0    $8, $13
        lw      $9, FORGET($26)
        sra     $8, $8, 31              # BD
        and     $8, $8, $9
        addu    $27, $27, $8
leave:
        lw      $8, SAVED_8($26)
        lw      $9, SAVED_9($26)
        jr      $27
        rfe

        /* All is written, and without an error. */
call:
        move    $2, $6
        move    $7, $0
        mfc0    $27, $14
        b       leave
        addiu   $27, $27, 4
