/*
 * The kernel, in the execution ROM at 0x00000000. It waits for a job in RAM,
 * runs the import program on it in user mode with translation on, and serves
 * its two system calls. $26 and $27 are the kernel's, never a program's.
 */
#include "calls.h"

#define ENTRY_HIGH      $10
#define ENTRY_LOW       $2
#define STATUS          $12
#define CAUSE           $13
#define EPC             $14

#define USER_STATUS     0x02000008      /* behind RFE: KUc 1, VMc 1, IEc 0 */
#define PRINTER         0x100001D0      /* printer 0: STATUS, COMMAND, DATA0 */
#define BUSY            3
#define PRINTCHR        2

#define READ_ONLY       0x200           /* V */
#define READ_WRITE      0x600           /* D and V */

        .set    noreorder
        .set    noat
        .text
        .globl  _start
_start:
        /* 0x0: no entry of the TLB matches. The page table has one. */
        mfc0    $26, ENTRY_HIGH
        lui     $27, PROGRAM >> 16
        subu    $26, $26, $27
        srl     $26, $26, 12
        sltiu   $27, $26, (page_table_end - page_table) / 4
        beq     $27, $0, stop
        sll     $26, $26, 2
        lw      $26, %lo(page_table)($26)
        mfc0    $27, EPC
        mtc0    $26, ENTRY_LOW
        tlbwr
        jr      $27
        rfe

        .org    0x80
        /* 0x80: all other exceptions. Only system calls are expected. */
        mfc0    $26, CAUSE
        li      $27, 8 << 2             # Sys
        andi    $26, $26, 0x7C
        bne     $26, $27, stop
        li      $27, PRINT
        beq     $2, $27, print
        li      $27, END
        beq     $2, $27, end
        nop
        /* What no kernel can mend: the machine stands still here. */
stop:   b       stop
        nop

        .org    0x100
        /* The start: wait until a job lies in RAM, and run the program on it. */
next:
        lui     $26, JOB_FRAME >> 16
        lbu     $27, JOB_FRAME & 0xFFFF($26)
        nop
        beq     $27, $0, next
        nop
        la      $26, USER_STATUS
        mtc0    $26, STATUS
        la      $27, PROGRAM
        jr      $27
        rfe

        /* The program has ended: the job's page is cleared for the next one. */
end:
        la      $26, JOB_FRAME
        addiu   $27, $26, 4096
clear:  addiu   $27, $27, -4
        bne     $27, $26, clear
        sw      $0, 0($27)
        b       next
        nop

        /* $4 goes to the printer, once it is idle. */
print:
        lui     $26, PRINTER >> 16
busy:   lw      $27, PRINTER & 0xFFFF($26)
        nop
        addiu   $27, $27, -BUSY
        beq     $27, $0, busy
        li      $27, PRINTCHR
        sw      $4, (PRINTER & 0xFFFF) + 8($26)
        sw      $27, (PRINTER & 0xFFFF) + 4($26)
        mfc0    $27, EPC
        nop
        addiu   $27, $27, 4
        jr      $27
        rfe

        /* A word for each page of the program: its frame, and what it allows. */
        .align  2
page_table:
        .word   CODE_FRAME | READ_ONLY
        .word   DATA_FRAME | READ_WRITE
        .word   STACK_FRAME | READ_WRITE
        .word   JOB_FRAME | READ_ONLY
page_table_end:
