/* Convert from C99: an image of version 2 made one of this version, and each refusal. */

#include "check.h"
#include "lavushmir.h"
#include "reset_image.h"

#include <string.h>

enum {
    OLD = LAVUSHMIR_OLD_IMAGE_BYTES,
    NEW = LAVUSHMIR_IMAGE_BYTES,
    GUARD = 16,
    RAM = 4096,
    PAPER = 64,
    OLD_RECORD = 256, /* of the journal beside an image of version 2 */
    OLD_JOURNAL = 5 * OLD_RECORD,
    JOURNAL = 2 * LAVUSHMIR_RECORD_BYTES,
    REGISTERS = 5,
    ON_HAND = 5 + 4 * LAVUSHMIR_WORD_ON_HAND,
    NEXT_SLOT = 5 + 4 * LAVUSHMIR_WORD_NEXT_SLOT,
    FLAG = 5 + 4 * LAVUSHMIR_WORD_SLOT_FLAG,
    CAUSE = 5 + 4 * LAVUSHMIR_WORD_CAUSE,
    PAPER_COUNT = 5 + 4 * (LAVUSHMIR_WORD_PRINTER + 4)
};

/* All that is lent, between bytes that are not. */
struct lent {
    uint8_t before[GUARD], old[OLD + 1], between[GUARD], image[NEW + 1], behind[GUARD];
    uint8_t paper[PAPER], journal[OLD_JOURNAL];
};
static struct lent lent, kept;

/* A machine of version 2 in the middle of its work: length word 505, version 2,
   the 126 words of then, with some that no reset writes. Its journal has an odd
   number of the slots of then. */
static void prepare(void)
{
    unsigned n;
    memset(&lent, 0xB7, sizeof lent);
    memcpy(lent.old, reset_image, OLD);
    lent.old[2] = 1;
    lent.old[3] = 0xF9;
    lent.old[4] = 2;
    for (n = 0; n < 31 * 4; n++)
        lent.old[REGISTERS + n] = (uint8_t)(0x40 + n);
    lent.old[CAUSE] = 0x80; /* BD */
    lent.old[PAPER_COUNT + 3] = PAPER / 8;
    lent.old[ON_HAND + 3] = 4;
    lent.old[NEXT_SLOT + 3] = 3;
    lent.old[FLAG + 3] = 1;
    lent.old[FLAG + 7] = 0x44;
    memcpy(&kept, &lent, sizeof lent);
}

static uint64_t convert(size_t old, size_t image, size_t paper, size_t journal)
{
    return lavushmir_convert(lent.old, old, lent.image, image, lent.paper, paper, lent.journal,
                             journal);
}

static void refuses(uint64_t answer, unsigned number, const char *what)
{
    check(answer == number, what);
    check(lavushmir_number(answer) == number, what);
    check(memcmp(&lent, &kept, sizeof lent) == 0, what);
}

/* The new image, byte by byte; and no other byte is written. */
static void converts(void)
{
    static const uint8_t behind[4 * 58];
    prepare();
    check(convert(OLD, NEW, PAPER, OLD_JOURNAL) == LAVUSHMIR_DONE, "a conversion is done");
    check(lent.image[0] == 0 && lent.image[1] == 0 && lent.image[2] == 2
              && lent.image[3] == 0xE1,
          "length word 737");
    check(lent.image[4] == LAVUSHMIR_IMAGE_VERSION && lent.image[4] == 3, "version 3");
    check(memcmp(lent.image + 5, lent.old + 5, ON_HAND - 5) == 0, "the words up to on hand");
    check(lavushmir_image_word(lent.image, LAVUSHMIR_WORD_ON_HAND) == 0, "no step on hand");
    check(lavushmir_image_word(lent.image, LAVUSHMIR_WORD_NEXT_SLOT) == 0, "next slot is 0");
    check(memcmp(lent.image + FLAG, lent.old + FLAG, 8) == 0, "flag and address stay");
    check(NEW - OLD == sizeof behind, "58 words more");
    check(memcmp(lent.image + OLD, behind, sizeof behind) == 0, "there are no disks");
    memcpy(lent.image, kept.image, NEW);
    check(memcmp(&lent, &kept, sizeof lent) == 0, "nothing else is written");
}

/* What is converted runs, and can be converted no second time. */
static void goes_on(void)
{
    static const uint8_t rom[4];
    static uint8_t ram[RAM], frames[LAVUSHMIR_INDEX_ENTRY_BYTES];
    uint64_t answer;
    prepare();
    check(convert(OLD, NEW, PAPER, OLD_JOURNAL) == LAVUSHMIR_DONE, "a conversion");
    answer = lavushmir_take_back(lent.image, NEW, ram, RAM, lent.paper, PAPER, lent.journal,
                                 JOURNAL, frames, sizeof frames, 1);
    check(answer == LAVUSHMIR_NOT_ON_HAND, "nothing can be taken back");
    answer = lavushmir_run(lent.image, NEW, rom, 4, rom, 4, ram, RAM, lent.paper, PAPER,
                           lent.journal, JOURNAL, frames, sizeof frames, 1, 0);
    check(lavushmir_number(answer) == LAVUSHMIR_DONE, "a run");
    check(lavushmir_steps(answer) == 1, "of one step");
    check(lavushmir_image_word(lent.image, LAVUSHMIR_WORD_ON_HAND) == 1, "one step on hand");
    answer = lavushmir_run(lent.old, OLD, rom, 4, rom, 4, ram, RAM, lent.paper, PAPER,
                           lent.journal, JOURNAL, frames, sizeof frames, 1, 0);
    check(answer == LAVUSHMIR_BAD_IMAGE, "an old image does not run");
    memcpy(&kept, &lent, sizeof lent);
    answer = lavushmir_convert(lent.image, NEW, lent.old, OLD, lent.paper, PAPER, lent.journal,
                               JOURNAL);
    refuses(answer, LAVUSHMIR_BAD_IMAGE, "an image of this version");
}

/* `value` at byte `at` of the old image breaks a rule of version 2. */
static void breaks(size_t at, uint8_t value, const char *what)
{
    prepare();
    lent.old[at] = value;
    memcpy(&kept, &lent, sizeof lent);
    refuses(convert(OLD, NEW, PAPER, OLD_JOURNAL), LAVUSHMIR_BAD_IMAGE, what);
}

static void refusals(void)
{
    prepare();
    refuses(convert(OLD - 1, NEW - 1, 4, 100), LAVUSHMIR_BAD_PAPER, "3 before 4 and 5");
    refuses(convert(OLD - 1, NEW - 1, 8, 100), LAVUSHMIR_BAD_JOURNAL, "4 before 5");
    refuses(convert(OLD - 1, NEW, PAPER, OLD_JOURNAL), LAVUSHMIR_BAD_IMAGE, "508 old bytes");
    refuses(convert(OLD + 1, NEW, PAPER, OLD_JOURNAL), LAVUSHMIR_BAD_IMAGE, "510 old bytes");
    refuses(convert(501, NEW, PAPER, OLD_JOURNAL), LAVUSHMIR_BAD_IMAGE, "501 old bytes");
    refuses(convert(0, NEW, PAPER, OLD_JOURNAL), LAVUSHMIR_BAD_IMAGE, "no old bytes");
    refuses(convert(OLD, NEW - 1, PAPER, OLD_JOURNAL), LAVUSHMIR_BAD_IMAGE, "740 new bytes");
    refuses(convert(OLD, NEW + 1, PAPER, OLD_JOURNAL), LAVUSHMIR_BAD_IMAGE, "742 new bytes");
    refuses(convert(OLD, 0, PAPER, OLD_JOURNAL), LAVUSHMIR_BAD_IMAGE, "no new bytes");
    refuses(convert(OLD, NEW, PAPER - 8, OLD_JOURNAL), LAVUSHMIR_BAD_IMAGE, "less paper");
    refuses(convert(OLD, NEW, PAPER, 3 * OLD_RECORD), LAVUSHMIR_BAD_IMAGE, "less journal");
    refuses(convert(OLD, NEW, PAPER, OLD_RECORD / 2), LAVUSHMIR_BAD_JOURNAL, "half an old slot");
    breaks(2, 2, "length word 761");
    breaks(4, 3, "version 3");
    breaks(4, 1, "version 1");
    breaks(4, 0, "version 0");
    breaks(CAUSE + 3, 1, "a bit of Cause that there is not");
    breaks(CAUSE + 2, 8, "IP[3] without disks");
    breaks(ON_HAND + 3, 6, "six steps on hand of five");
    breaks(NEXT_SLOT + 3, 5, "next slot 5 of five");
    breaks(FLAG + 3, 2, "slot flag 2");
    breaks(FLAG + 3, 0, "a branch address without the flag");
}

/* An image of version 1, by its own length: converted no more. */
static void first_version(void)
{
    prepare();
    lent.old[3] = 0xF1;
    lent.old[4] = 1;
    memcpy(&kept, &lent, sizeof lent);
    refuses(convert(501, NEW, PAPER, OLD_JOURNAL), LAVUSHMIR_BAD_IMAGE, "an image of version 1");
}

int main(void)
{
    converts();
    goes_on();
    refusals();
    first_version();
    return checked("convert");
}
