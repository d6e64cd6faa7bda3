/* The bootstrap ROM: sets the timer, and starts the program in its mode. */
#include "mailbox.h"

        .set    noreorder
        .text
        .globl  _start
_start:
        lui     $26, MAILBOX_HIGH
        lw      $27, PERIOD($26)
        lui     $8, 0x1000
        sw      $27, 0x20($8)
        lw      $27, ENTRY_STATUS($26)
        move    $8, $0
        mtc0    $27, $12
        addiu   $26, $26, 0x1000
        jr      $26
        rfe
