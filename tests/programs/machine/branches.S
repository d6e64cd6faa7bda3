/*
 * Every shape of branch and jump, with work in its slot: a program for the
 * sweep, which interrupts it at each of its steps. $16 is worked out anew at
 * every place that is passed, so that one place too many or too few, or a slot
 * that runs twice or never, shows in the end.
 *
 * With BRANCH_IN_SLOT there are also branches in slots, of the kinds that can be
 * run once more from the branch: MIPS I leaves them open, and qemu-mipsel
 * refuses them.
 */
        .set    noreorder
        .set    noat

        /* A place that is passed. */
        .macro  mark number
        sll     $9, $16, 5
        addu    $16, $16, $9
        xori    $16, $16, \number
        .endm

        /* Where a branch goes to 1, and where it does not. */
        .macro  ways
        mark    0x101
        b       2f
        sll     $16, $16, 1
1:      mark    0x202
2:
        .endm

        .macro  compare op, left, right, number
        li      $10, \left
        li      $11, \right
        \op     $10, $11, 1f
        addiu   $16, $16, \number
        ways
        .endm

        .macro  sign op, value, number
        li      $10, \value
        \op     $10, 1f
        addiu   $16, $16, \number
        ways
        .endm

        /* The slot sees the link, whether the branch is taken or not. */
        .macro  link op, value
        li      $10, \value
        \op     $10, 1f
        addu    $16, $16, $31
        ways
        .endm

        /* By way of a table, with the word that is read in the slot. */
        .macro  table place
        la      $13, places
        lw      $13, 4 * \place($13)
        la      $12, words
        jr      $13
        lw      $12, 4 * \place($12)
        .endm

        .text
        .globl  main
        .ent    main
main:
        addiu   $29, $29, -32
        sw      $31, 28($29)
        li      $16, 1

        compare beq, 5, 5, 1
        compare beq, 5, 6, 2
        compare bne, 5, 5, 3
        compare bne, -5, 5, 4
        sign    blez, -1, 5
        sign    blez, 0, 6
        sign    blez, 1, 7
        sign    bgtz, -1, 8
        sign    bgtz, 0, 9
        sign    bgtz, 1, 10
        sign    bltz, -1, 11
        sign    bltz, 0, 12
        sign    bgez, -1, 13
        sign    bgez, 0, 14
        link    bltzal, -1
        link    bltzal, 1
        link    bgezal, -1
        link    bgezal, 1

        /* Loops: the count goes down in the slot; a store goes on in it. */
        li      $12, 4
1:      mark    0x303
        bne     $12, $0, 1b
        addiu   $12, $12, -1
        la      $13, words
        li      $12, 3
1:      addiu   $12, $12, -1
        addiu   $13, $13, 4
        bgtz    $12, 1b
        sw      $16, 60($13)

        /* Jumps and calls, with arguments and results in slots. */
        j       1f
        addiu   $16, $16, 15
        mark    0x404
1:      jal     leaf
        move    $4, $16
        addu    $16, $16, $2
        la      $13, other_leaf
        jalr    $14, $13
        addiu   $4, $16, 16
        addu    $16, $16, $2
        table   0
back_0: addu    $16, $16, $12
        table   1
back_1: addu    $16, $16, $12
        jal     fib
        li      $4, 4
        addu    $16, $16, $2

        /* Other work in slots: a load, a store, a product, parts of words. */
        la      $13, words
        b       1f
        lw      $12, 8($13)
        mark    0x505
1:      addu    $16, $16, $12
        beq     $0, $0, 1f
        sw      $16, 64($13)
        mark    0x606
1:      bne     $16, $0, 1f
        mult    $16, $12
        mark    0x707
1:      mflo    $8
        addu    $16, $16, $8
        lwl     $12, 69($13)
        b       1f
        lwr     $12, 66($13)
        mark    0x808
1:      addu    $16, $16, $12
        b       1f
        swl     $16, 74($13)
        mark    0x909
1:

        /* Over the edge of a page: the branch is its last word. */
        jal     before_edge
        addiu   $16, $16, 17
        jal     before_other_edge
        addiu   $16, $16, 18

#ifdef BRANCH_IN_SLOT
        /* Behind one that is not taken: taken, not taken, a call. */
        bne     $0, $0, 1f
        b       2f
        addiu   $16, $16, 19
1:      mark    0x111
2:      bne     $0, $0, 1f
        bgtz    $0, 1f
        addiu   $16, $16, 20
        bltz    $0, 1f
        jal     leaf
        move    $4, $16
        b       2f
        addu    $16, $16, $2
1:      mark    0x222
        /* Behind one that is taken: its target begins as what stands behind the
           second, so that either is good for the second one's slot. */
2:      b       1f
        b       2f
        addiu   $16, $16, 21
        mark    0x333
1:      addiu   $16, $16, 21
        mark    0x444
2:      mark    0x555
#endif

        la      $13, words
        sw      $16, 80($13)
        move    $4, $13
        jal     write_out
        li      $5, 84
        lw      $31, 28($29)
        andi    $2, $16, 63
        jr      $31
        addiu   $29, $29, 32

to_0:   b       back_0
        addiu   $16, $16, 22
to_1:   mark    0xAAA
        j       back_1
        sll     $12, $12, 3

leaf:   sll     $8, $4, 3
        jr      $31
        xor     $2, $8, $4
other_leaf:
        srl     $8, $4, 5
        jr      $14
        nor     $2, $8, $4

        /* $2: the number of Fibonacci that $4 names. */
fib:    slti    $8, $4, 2
        bne     $8, $0, 1f
        move    $2, $4
        addiu   $29, $29, -12
        sw      $31, 0($29)
        sw      $4, 4($29)
        jal     fib
        addiu   $4, $4, -1
        lw      $4, 4($29)
        sw      $2, 8($29)
        jal     fib
        addiu   $4, $4, -2
        lw      $8, 8($29)
        lw      $31, 0($29)
        addu    $2, $2, $8
        jr      $31
        addiu   $29, $29, 12
1:      jr      $31
        nop
        .end    main

        .section .text.edge, "ax"
        .balign 4096
        .space  4096 - 12
before_edge:
        lui     $12, 0x1234
        addiu   $16, $16, 23
        bne     $12, $0, 1f
        addiu   $16, $16, 24
        mark    0x666
1:      jr      $31
        addu    $16, $16, $12

        .section .text.other_edge, "ax"
        .balign 4096
        .space  4096 - 16
before_other_edge:
        move    $14, $31
        la      $12, words
        bgezal  $0, 1f
        sw      $16, 76($12)
        mark    0x777
1:      addu    $16, $16, $31
        jr      $14
        addiu   $16, $16, 25

        .data
        .align  4
words:  .word   11, 22, 33, 44
        .space  96
places: .word   to_0, to_1
