/* Take-back from C99: a run taken back step by step and at once, and each refusal. */

#include "check.h"
#include "lavushmir.h"

#include <string.h>

enum {
    ROM = 24,
    RAM = 4096,
    PAPER = 64,
    SLOTS = 4,
    JOURNAL = LAVUSHMIR_RECORD_BYTES * SLOTS,
    INDEX = 16,
    REGISTER_9 = 5 + 4 * 8,
    ON_HAND = 5 + 4 * 122,
    NEXT_SLOT = 5 + 4 * 123,
    SLOT_FLAG = 5 + 4 * 124,
    BRANCH = 5 + 4 * 125
};

static const uint8_t program[ROM] = {
    0x00, 0x20, 0x08, 0x3C, /* lui   $8, 0x2000 */
    0x19, 0x00, 0x09, 0x24, /* addiu $9, $0, 25 */
    0x00, 0x00, 0x09, 0xAD, /* sw    $9, 0($8)  */
    0x02, 0x00, 0x00, 0x42, /* tlbwi            */
    0x18, 0x00, 0x29, 0x01, /* mult  $9, $9     */
    0x0D, 0x00, 0x00, 0x00, /* break            */
};

static uint8_t image[LAVUSHMIR_IMAGE_BYTES], ram[RAM], paper[PAPER], journal[JOURNAL];
static uint8_t frames[INDEX];
/* What a call may write; the journal is only read. */
struct lent {
    uint8_t image[LAVUSHMIR_IMAGE_BYTES], ram[RAM], paper[PAPER], journal[JOURNAL], index[INDEX];
};

static void keep(struct lent *kept)
{
    memcpy(kept->image, image, sizeof image);
    memcpy(kept->ram, ram, RAM);
    memcpy(kept->paper, paper, PAPER);
    memcpy(kept->journal, journal, JOURNAL);
    memcpy(kept->index, frames, INDEX);
}

/* All but on hand and next slot, two words of the image, the journal, and the index, which
   depends on what is on hand. */
static int same_state(const struct lent *kept)
{
    return memcmp(kept->image, image, ON_HAND) == 0
        && memcmp(kept->image + SLOT_FLAG, image + SLOT_FLAG, sizeof image - SLOT_FLAG) == 0
        && memcmp(kept->ram, ram, RAM) == 0 && memcmp(kept->paper, paper, PAPER) == 0;
}

static int same_bytes(const struct lent *kept)
{
    return same_state(kept) && memcmp(kept->image, image, sizeof image) == 0
        && memcmp(kept->journal, journal, JOURNAL) == 0
        && memcmp(kept->index, frames, INDEX) == 0;
}

static unsigned word(size_t at)
{
    return (unsigned)image[at] << 24 | (unsigned)image[at + 1] << 16
        | (unsigned)image[at + 2] << 8 | image[at + 3];
}

static void prepare(void)
{
    memset(ram, 0xA1, RAM);
    memset(paper, 0xA2, PAPER);
    memset(journal, 0xA3, JOURNAL);
    memset(frames, 0xA4, INDEX);
    check(lavushmir_reset(image, sizeof image, frames, INDEX, 1, 1, 0xFF) == LAVUSHMIR_DONE,
          "reset");
}

static uint64_t run(uint64_t budget)
{
    return lavushmir_run(image, sizeof image, program, ROM, program, ROM, ram, RAM, paper, PAPER,
                         journal, JOURNAL, frames, INDEX, budget, 0);
}

static uint64_t take_back(size_t image_bytes, size_t ram_bytes, size_t paper_bytes,
                          size_t journal_bytes, uint64_t steps)
{
    return lavushmir_take_back(image, image_bytes, ram, ram_bytes, paper, paper_bytes, journal,
                               journal_bytes, frames, INDEX, steps);
}

/* The clock that the index has for the one frame; 0: none. */
static uint64_t changed_at(void)
{
    return lavushmir_index_has(frames, 0) ? lavushmir_index_clock(frames, 0) : 0;
}

static uint64_t back(uint64_t steps)
{
    return take_back(sizeof image, RAM, PAPER, JOURNAL, steps);
}

static void refuses(uint64_t answer, unsigned number, const struct lent *kept, const char *what)
{
    check(answer == number, what);
    check(same_bytes(kept), what);
}

/* Steps that do not fit the journal any more can not be taken back. */
static void there_and_back(void)
{
    struct lent start, second, after, taken;
    uint64_t answer;
    size_t i;

    prepare();
    keep(&start);
    run(2);
    keep(&second);
    run(4);
    keep(&after);
    check(ram[0] == 25, "SW has stored 25");
    check(word(ON_HAND) == SLOTS && word(NEXT_SLOT) == 2, "a full journal");
    check(changed_at() == 3, "SW was the third step");

    answer = back(SLOTS);
    check(lavushmir_number(answer) == LAVUSHMIR_DONE, "four steps taken back");
    check(lavushmir_reason(answer) == LAVUSHMIR_NO_REASON, "for no reason");
    check(lavushmir_steps(answer) == SLOTS, "and four reported");
    check(same_state(&second), "the state after two steps");
    check(ram[0] == 0xA1 && word(REGISTER_9) == 25, "RAM as it was, $9 set");
    check(word(ON_HAND) == 0 && word(NEXT_SLOT) == 2, "an empty journal");
    check(memcmp(after.journal, journal, JOURNAL) == 0, "its bytes stay");
    check(changed_at() == 0, "and no change of the frame on hand");
    check(back(1) == LAVUSHMIR_NOT_ON_HAND, "the first two are gone");

    check(lavushmir_steps(run(4)) == 4, "the same steps again");
    check(same_state(&after), "leave the same state");
    check(memcmp(after.index, frames, INDEX) == 0, "and the same index");
    for (i = 0; i < SLOTS; i++)
        check(back(1) == (uint64_t)1 << 32, "one step at a time");
    check(same_state(&second), "leads to the same place");

    prepare();
    run(3);
    keep(&taken);
    check(back(0) == 0 && same_bytes(&taken), "a take-back of 0 changes nothing");
    check(back(3) == (uint64_t)3 << 32 && same_bytes(&taken) == 0, "three back");
    check(same_state(&start) && word(NEXT_SLOT) == 0, "to the reset");
}

/* Flag and address are taken back with the rest: a branch, and BREAK in its slot. */
static void in_a_slot(void)
{
    static const uint8_t slot[8] = {0xFF, 0xFF, 0x00, 0x10, 0x0D, 0, 0, 0};
    struct lent start, between;
    uint64_t answer;

    prepare();
    keep(&start);
    lavushmir_run(image, sizeof image, slot, 8, slot, 8, ram, RAM, paper, PAPER, journal, JOURNAL,
                  frames, INDEX, 1, 0);
    keep(&between);
    check(word(SLOT_FLAG) == 1 && word(BRANCH) == 0x1FC00000, "behind the branch");
    answer = lavushmir_run(image, sizeof image, slot, 8, slot, 8, ram, RAM, paper, PAPER, journal,
                           JOURNAL, frames, INDEX, 1, 1);
    check(lavushmir_reason(answer) == LAVUSHMIR_EXCEPTION, "BREAK in the slot");
    check(word(SLOT_FLAG) == 0 && word(BRANCH) == 0, "an entry is no branch");
    check(back(1) == (uint64_t)1 << 32 && same_state(&between), "back to the slot");
    check(back(1) == (uint64_t)1 << 32 && same_state(&start), "and to the branch");
}

static void refusals(void)
{
    struct lent kept;
    uint8_t *oldest = journal + 255;

    prepare();
    run(3);
    *oldest = 1;
    keep(&kept);
    refuses(take_back(508, RAM - 1, 4, 100, 9), LAVUSHMIR_BAD_RAM, &kept, "1 before all others");
    refuses(take_back(508, RAM, 4, 100, 9), LAVUSHMIR_BAD_PAPER, &kept, "3 before 4 to 8");
    refuses(take_back(508, RAM, 8, 100, 9), LAVUSHMIR_BAD_JOURNAL, &kept, "4 before 5 to 8");
    refuses(take_back(508, RAM, 8, JOURNAL, 9), LAVUSHMIR_BAD_IMAGE, &kept, "5 before 7 and 8");
    refuses(back(4), LAVUSHMIR_NOT_ON_HAND, &kept, "7 before 8");
    refuses(back(((uint64_t)1 << 32) + 1), LAVUSHMIR_NOT_ON_HAND, &kept, "2^32 + 1 steps");
    refuses(back(3), LAVUSHMIR_BAD_RECORD, &kept, "only the last of three is bad");
    refuses(lavushmir_take_back(image, sizeof image, ram, RAM, paper, PAPER, journal, JOURNAL,
                                frames, 0, 3),
            LAVUSHMIR_BAD_RECORD, &kept, "8 before 10");
    refuses(lavushmir_take_back(image, sizeof image, ram, RAM, paper, PAPER, journal, JOURNAL,
                                frames, INDEX - 1, 2),
            LAVUSHMIR_BAD_INDEX, &kept, "another length of the index");
    check(back(2) == (uint64_t)2 << 32, "and the two before it are not");
    keep(&kept);
    refuses(back(1), LAVUSHMIR_BAD_RECORD, &kept, "it is bad alone");
    *oldest = 0;
    image[0] ^= 1;
    keep(&kept);
    refuses(back(1), LAVUSHMIR_BAD_IMAGE, &kept, "a damaged image");
    image[0] ^= 1;
    check(back(1) == (uint64_t)1 << 32, "all mended");
}

int main(void)
{
    there_and_back();
    in_a_slot();
    refusals();
    return checked("take-back");
}
