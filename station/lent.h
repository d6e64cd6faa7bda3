/* lent.h - the buffers that are lent to the session: one set for the station,
 * one for a second state (compare, restore), and one for a file. */
#ifndef LENT_H
#define LENT_H

#include "station_files.h"

enum { EXECUTION, BOOTSTRAP, ROMS };
enum { IMAGE, RAM, PAPER, JOURNAL, INDEX, FILES };

/* The longest of each that a machine allows; of the ROMs and of a file one byte
 * more, so that the session sees that one is too long. */
enum {
    ROM_BYTES = 65536 + 1,
    RAM_BYTES = 16777216,
    PAPER_BYTES = 65536,
    JOURNAL_BYTES = 16777216,
    INDEX_BYTES = 65536,
    FILE_BYTES = RAM_BYTES + 1
};

typedef struct { sf_file roms[ROMS]; sf_file files[FILES]; } lent_set;

extern lent_set lent, lent_other;
extern uint8_t lent_file[FILE_BYTES];

/* The state is the other set's from now on; the ROMs stay. */
void lent_take_other(void);

#endif
