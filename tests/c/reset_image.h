/*
 * The image that reset writes for time scale 0x12, printer delay 0x3456 and
 * installed map 0xA5, without disks, byte by byte from documents 01 and 02 (L2,
 * L4).
 */
#ifndef RESET_IMAGE_H
#define RESET_IMAGE_H

#include <stdint.h>

/* Four words that are 0. */
#define ZEROS_4 0, 0, 0, 0, 0, 0, 0, 0, 0, 0, 0, 0, 0, 0, 0, 0

/* Seven words that are 0. */
#define ZEROS_7 ZEROS_4, 0, 0, 0, 0, 0, 0, 0, 0, 0, 0, 0, 0

static const uint8_t reset_image[] = {
    0x00, 0x00, 0x02, 0xE1, /* length word: 737 */
    0x03,                   /* version */
    ZEROS_4,                /* registers 1 to 4 */
    ZEROS_4,                /* 5 to 8 */
    ZEROS_4,                /* 9 to 12 */
    ZEROS_4,                /* 13 to 16 */
    ZEROS_4,                /* 17 to 20 */
    ZEROS_4,                /* 21 to 24 */
    ZEROS_4,                /* 25 to 28 */
    0x00, 0x00, 0x00, 0x00, /* 29 */
    0x00, 0x00, 0x00, 0x00, /* 30 */
    0x00, 0x00, 0x00, 0x00, /* 31 */
    0x00, 0x00, 0x00, 0x00, /* HI */
    0x00, 0x00, 0x00, 0x00, /* LO */
    0x1F, 0xC0, 0x00, 0x00, /* PC */
    0x1F, 0xC0, 0x00, 0x04, /* next PC */
    0x00, 0x00, 0x00, 0x00, /* Index */
    0x00, 0x00, 0x0F, 0x00, /* Random: 15 in bits 8 to 13 */
    0x00, 0x00, 0x00, 0x00, /* EntryHi */
    0x00, 0x00, 0x00, 0x00, /* EntryLo */
    0x00, 0x00, 0x00, 0x00, /* BadVAddr */
    0x10, 0x40, 0x00, 0x00, /* Status */
    0x00, 0x00, 0x00, 0x00, /* Cause */
    0x00, 0x00, 0x00, 0x00, /* EPC */
    ZEROS_4,                /* TLB pairs 0 and 1 */
    ZEROS_4,                /* 2 and 3 */
    ZEROS_4,                /* 4 and 5 */
    ZEROS_4,                /* 6 and 7 */
    ZEROS_4,                /* 8 and 9 */
    ZEROS_4,                /* 10 and 11 */
    ZEROS_4,                /* 12 and 13 */
    ZEROS_4,                /* 14 and 15 */
    0x00, 0x00, 0x00, 0x00, /* clock high */
    0x00, 0x00, 0x00, 0x00, /* clock low */
    0xFF, 0xFF, 0xFF, 0xFF, /* timer */
    0x00, 0x00, 0x00, 0x12, /* time scale */
    0x00, 0x00, 0x34, 0x56, /* printer delay */
    0x00, 0x00, 0x00, 0xA5, /* installed map: printers 0, 2, 5, 7 */
    /* Each printer: STATUS, then COMMAND, DATA0, ticks left, paper count. */
    0x00, 0x00, 0x00, 0x01, ZEROS_4, /* printer 0, installed */
    0x00, 0x00, 0x00, 0x00, ZEROS_4, /* printer 1 */
    0x00, 0x00, 0x00, 0x01, ZEROS_4, /* printer 2, installed */
    0x00, 0x00, 0x00, 0x00, ZEROS_4, /* printer 3 */
    0x00, 0x00, 0x00, 0x00, ZEROS_4, /* printer 4 */
    0x00, 0x00, 0x00, 0x01, ZEROS_4, /* printer 5, installed */
    0x00, 0x00, 0x00, 0x00, ZEROS_4, /* printer 6 */
    0x00, 0x00, 0x00, 0x01, ZEROS_4, /* printer 7, installed */
    0x00, 0x00, 0x00, 0x00, /* pending map */
    0x00, 0x00, 0x00, 0x00, /* steps on hand */
    0x00, 0x00, 0x00, 0x00, /* next slot */
    0x00, 0x00, 0x00, 0x00, /* slot flag */
    0x00, 0x00, 0x00, 0x00, /* branch address */
    0x00, 0x00, 0x00, 0x00, /* disks' installed map */
    ZEROS_7, ZEROS_7,       /* disks 0 and 1, of seven words each */
    ZEROS_7, ZEROS_7,       /* 2 and 3 */
    ZEROS_7, ZEROS_7,       /* 4 and 5 */
    ZEROS_7, ZEROS_7,       /* 6 and 7 */
    0x00, 0x00, 0x00, 0x00  /* disks' pending map */
};

#endif
