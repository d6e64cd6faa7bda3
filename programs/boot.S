/*
 * The bootstrap ROM, at 0x1FC00000: where the machine starts. From here on
 * exceptions go to the execution ROM (BEV 0), and the kernel there takes over.
 */
        .set    noreorder
        .text
        .globl  _start
_start:
        mtc0    $0, $12                 # Status
        la      $26, 0x100              # the kernel's start, see kernel.S
        jr      $26
        nop
