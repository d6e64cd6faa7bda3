/* lent.c - see lent.h. */
#include "lent.h"

#include "station.h"

#include <string.h>

typedef struct {
    uint8_t execution[ROM_BYTES], bootstrap[ROM_BYTES];
    uint8_t image[STATION_IMAGE_BYTES], ram[RAM_BYTES], paper[PAPER_BYTES], journal[JOURNAL_BYTES];
    uint8_t index[INDEX_BYTES];
} arrays;

#define SET(a)                                                                 \
    {                                                                          \
        {                                                                      \
            {"execution.rom", (a).execution, 0, sizeof (a).execution, 0},      \
            {"bootstrap.rom", (a).bootstrap, 0, sizeof (a).bootstrap, 0},      \
        },                                                                     \
        {                                                                      \
            {"image", (a).image, 0, sizeof (a).image, 0},                      \
            {"ram", (a).ram, 0, sizeof (a).ram, 0},                            \
            {"paper", (a).paper, 0, sizeof (a).paper, 0},                      \
            {"journal", (a).journal, 0, sizeof (a).journal, 0},                \
            {"index", (a).index, 0, sizeof (a).index, 1},                      \
        },                                                                     \
    }

static arrays own, other;
lent_set lent = SET(own), lent_other = SET(other);
uint8_t lent_file[FILE_BYTES];

void lent_take_other(void)
{
    for (int i = 0; i < FILES; i++) {
        lent.files[i].length = lent_other.files[i].length;
        memcpy(lent.files[i].data, lent_other.files[i].data, lent.files[i].length);
    }
}
