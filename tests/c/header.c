/* The header's constants and texts, held to what the archive does. */

#include "check.h"
#include "lavushmir.h"

#include <string.h>

enum {
    MOST_RAM = LAVUSHMIR_MOST_FRAMES * LAVUSHMIR_FRAME_BYTES
};

/* Each buffer has room for the first length beyond its limit. */
static uint8_t image[LAVUSHMIR_IMAGE_BYTES];
static uint8_t rom[LAVUSHMIR_MOST_ROM_BYTES + 4];
static uint8_t other_rom[LAVUSHMIR_MOST_ROM_BYTES + 4];
static uint8_t ram[MOST_RAM + LAVUSHMIR_FRAME_BYTES];
static uint8_t paper[LAVUSHMIR_MOST_PAPER_BYTES + 8];
static uint8_t journal[LAVUSHMIR_MOST_JOURNAL_BYTES + LAVUSHMIR_RECORD_BYTES];
static uint8_t frames[(LAVUSHMIR_MOST_FRAMES + 1) * LAVUSHMIR_INDEX_ENTRY_BYTES];

/* The index of RAM of so many bytes. */
static size_t index_bytes(size_t ram_bytes)
{
    return ram_bytes / LAVUSHMIR_FRAME_BYTES * LAVUSHMIR_INDEX_ENTRY_BYTES;
}

static unsigned run_number(size_t rom_bytes, size_t ram_bytes, size_t paper_bytes,
                           size_t journal_bytes, uint64_t budget)
{
    return lavushmir_number(lavushmir_run(image, sizeof image, rom, rom_bytes, other_rom,
                                          rom_bytes, ram, ram_bytes, paper, paper_bytes,
                                          journal, journal_bytes, frames, index_bytes(ram_bytes),
                                          budget, 0));
}

static unsigned reset_number(uint64_t time_scale, uint64_t printer_delay)
{
    return lavushmir_number(lavushmir_reset(image, sizeof image, frames,
                                            LAVUSHMIR_INDEX_ENTRY_BYTES, time_scale,
                                            printer_delay, 0xFF));
}

static void limits(void)
{
    size_t rom_most = LAVUSHMIR_MOST_ROM_BYTES, rom_least = LAVUSHMIR_LEAST_ROM_BYTES;
    size_t frame = LAVUSHMIR_FRAME_BYTES, paper_most = LAVUSHMIR_MOST_PAPER_BYTES;
    size_t journal_most = LAVUSHMIR_MOST_JOURNAL_BYTES, record = LAVUSHMIR_RECORD_BYTES;
    check(reset_number(LAVUSHMIR_MOST_TIME_SCALE, LAVUSHMIR_MOST_PRINTER_DELAY) == 0,
          "the largest time scale and delay");
    check(reset_number(LAVUSHMIR_MOST_TIME_SCALE + 1, 1) == LAVUSHMIR_BAD_PARAMETER,
          "a time scale too large");
    check(reset_number(1, LAVUSHMIR_MOST_PRINTER_DELAY + 1) == LAVUSHMIR_BAD_PARAMETER,
          "a delay too large");
    check(reset_number(1, 1) == LAVUSHMIR_DONE, "the least time scale and delay");

    check(run_number(rom_most, MOST_RAM, paper_most, journal_most, 0) == 0, "all at their most");
    check(run_number(rom_least, frame, 0, 0, 0) == 0, "all at their least");
    check(run_number(rom_least, MOST_RAM + frame, 0, 0, 0) == LAVUSHMIR_BAD_RAM, "RAM");
    check(run_number(rom_least, 0, 0, 0, 0) == LAVUSHMIR_BAD_RAM, "no RAM");
    check(run_number(rom_most + 4, frame, 0, 0, 0) == LAVUSHMIR_BAD_ROM, "ROM");
    check(run_number(rom_least - 4, frame, 0, 0, 0) == LAVUSHMIR_BAD_ROM, "no ROM");
    check(run_number(rom_least, frame, paper_most + 8, 0, 0) == LAVUSHMIR_BAD_PAPER, "paper");
    check(run_number(rom_least, frame, 0, journal_most + record, 0) == LAVUSHMIR_BAD_JOURNAL,
          "journal");
    check(run_number(rom_least, frame, 0, record - 1, 0) == LAVUSHMIR_BAD_JOURNAL,
          "a part of a record");
    check(run_number(rom_least, frame, 0, 0, LAVUSHMIR_MOST_BUDGET + 1)
              == LAVUSHMIR_BAD_PARAMETER,
          "budget");
}

/* After a reset each named word is what the machine's rules say. */
static void words(void)
{
    unsigned n, zeros = 0;
    check(lavushmir_number(lavushmir_reset(image, sizeof image, frames,
                                           LAVUSHMIR_INDEX_ENTRY_BYTES, 3, 77, 0x81)) == 0,
          "a reset");
    check(lavushmir_image_word(image, LAVUSHMIR_WORD_PC) == LAVUSHMIR_BOOTSTRAP_ROM_ADDRESS,
          "PC");
    check(lavushmir_image_word(image, LAVUSHMIR_WORD_NEXT_PC) == 0x1FC00004, "next PC");
    check(lavushmir_image_word(image, LAVUSHMIR_WORD_RANDOM)
              == (LAVUSHMIR_TLB_ENTRIES - 1) * 0x100u,
          "Random");
    check(lavushmir_image_word(image, LAVUSHMIR_WORD_STATUS) == 0x10400000, "Status");
    check(lavushmir_image_word(image, LAVUSHMIR_WORD_TIMER) == 0xFFFFFFFF, "timer");
    check(lavushmir_image_word(image, LAVUSHMIR_WORD_TIME_SCALE) == 3, "time scale");
    check(lavushmir_image_word(image, LAVUSHMIR_WORD_PRINTER_DELAY) == 77, "printer delay");
    check(lavushmir_image_word(image, LAVUSHMIR_WORD_INSTALLED) == 0x81, "installed");
    check(lavushmir_image_word(image, LAVUSHMIR_WORD_PRINTER) == 1, "printer 0");
    check(lavushmir_image_word(
              image, LAVUSHMIR_WORD_PRINTER + 5 * (LAVUSHMIR_PRINTERS - 1))
              == 1,
          "printer 7");
    for (n = 0; n < LAVUSHMIR_IMAGE_WORDS; n++)
        zeros += lavushmir_image_word(image, n) == 0;
    check(zeros == LAVUSHMIR_IMAGE_WORDS - 10, "all other words are 0");
    check(image[4] == LAVUSHMIR_IMAGE_VERSION, "version");
    check(LAVUSHMIR_WORD_PRINTER + 5 * LAVUSHMIR_PRINTERS == LAVUSHMIR_WORD_PENDING,
          "the pending map stands behind the printers");
    check(LAVUSHMIR_WORD_BRANCH + 1 + 58 == LAVUSHMIR_IMAGE_WORDS,
          "58 words of disks stand behind the branch");
    check(LAVUSHMIR_WORD_TLB + 2 * LAVUSHMIR_TLB_ENTRIES == LAVUSHMIR_WORD_CLOCK_HIGH,
          "the clock stands behind the table");
    check(5 + 4 * LAVUSHMIR_IMAGE_WORDS == LAVUSHMIR_IMAGE_BYTES, "length");
}

/* The words that steps change: a machine with BREAK at PC enters an exception. */
static void words_after_a_step(void)
{
    static const uint8_t break_word[4] = {0x0D, 0, 0, 0};
    uint64_t answer;
    memcpy(other_rom, break_word, 4);
    answer = lavushmir_run(image, sizeof image, rom, 4, other_rom, 4, ram,
                           LAVUSHMIR_FRAME_BYTES, paper, 0, journal, 2 * LAVUSHMIR_RECORD_BYTES,
                           frames, LAVUSHMIR_INDEX_ENTRY_BYTES, 1, 1);
    check(lavushmir_reason(answer) == LAVUSHMIR_EXCEPTION, "BREAK is an exception");
    check(lavushmir_image_word(image, LAVUSHMIR_WORD_EPC) == 0x1FC00000, "EPC");
    check(lavushmir_image_word(image, LAVUSHMIR_WORD_CAUSE) == 9 * 4, "Cause");
    check(lavushmir_image_word(image, LAVUSHMIR_WORD_CLOCK_LOW) == 1, "clock low");
    check(lavushmir_image_word(image, LAVUSHMIR_WORD_CLOCK_HIGH) == 0, "clock high");
    check(lavushmir_clock(image) == 1, "the clock as one number");
    check(lavushmir_image_word(image, LAVUSHMIR_WORD_ON_HAND) == 1, "on hand");
    check(lavushmir_image_word(image, LAVUSHMIR_WORD_NEXT_SLOT) == 1, "next slot");
}

/* J to itself with BREAK in its slot: the image says that the next step is a slot,
   and EPC goes back to the branch. */
static void words_in_a_slot(void)
{
    static const uint8_t slot[8] = {0, 0, 0xF0, 0x0B, 0x0D, 0, 0, 0};
    unsigned steps;
    check(reset_number(1, 1) == LAVUSHMIR_DONE, "a reset for a slot");
    memcpy(other_rom, slot, sizeof slot);
    for (steps = 1; steps <= 2; steps++) {
        uint64_t answer = lavushmir_run(image, sizeof image, rom, 4, other_rom, sizeof slot, ram,
                                        LAVUSHMIR_FRAME_BYTES, paper, 0, journal, 0, frames,
                                        LAVUSHMIR_INDEX_ENTRY_BYTES, 1, 0);
        uint32_t in_slot = steps == 1, branch = in_slot ? LAVUSHMIR_BOOTSTRAP_ROM_ADDRESS : 0;
        check(lavushmir_steps(answer) == 1, "a step");
        check(lavushmir_image_word(image, LAVUSHMIR_WORD_SLOT_FLAG) == in_slot, "slot flag");
        check(lavushmir_image_word(image, LAVUSHMIR_WORD_BRANCH) == branch, "branch");
    }
    check(lavushmir_image_word(image, LAVUSHMIR_WORD_EPC) == LAVUSHMIR_BOOTSTRAP_ROM_ADDRESS,
          "EPC of a slot");
    check(lavushmir_image_word(image, LAVUSHMIR_WORD_CAUSE) == (0x80000000u | 9 * 4), "BD");
}

static void put_word(unsigned place, uint32_t value)
{
    uint8_t *at = image + 5 + 4 * place;
    at[0] = (uint8_t)(value >> 24);
    at[1] = (uint8_t)(value >> 16);
    at[2] = (uint8_t)(value >> 8);
    at[3] = (uint8_t)value;
}

/* A fetch for which two entries of the table match is not made. */
static void two_matches(void)
{
    static uint8_t before[sizeof image];
    unsigned entry;
    uint64_t answer;
    check(reset_number(1, 1) == LAVUSHMIR_DONE, "a reset for two matches");
    put_word(LAVUSHMIR_WORD_STATUS, 0x01000000);
    put_word(LAVUSHMIR_WORD_PC, 0x80000000);
    for (entry = 3; entry < LAVUSHMIR_TLB_ENTRIES; entry += LAVUSHMIR_TLB_ENTRIES - 4) {
        put_word(LAVUSHMIR_WORD_TLB + 2 * entry, 0x80000000);
        put_word(LAVUSHMIR_WORD_TLB + 2 * entry + 1, LAVUSHMIR_RAM_ADDRESS | 0x200);
    }
    memcpy(before, image, sizeof image);
    answer = lavushmir_run(image, sizeof image, rom, 4, other_rom, 4, ram,
                           LAVUSHMIR_FRAME_BYTES, paper, 0, journal, 0, frames,
                           LAVUSHMIR_INDEX_ENTRY_BYTES, 5, 0);
    check(lavushmir_number(answer) == LAVUSHMIR_DONE, "a run to two matches is done");
    check(lavushmir_reason(answer) == LAVUSHMIR_TWO_MATCHES, "two matches");
    check(lavushmir_steps(answer) == 0, "and no step");
    check(memcmp(before, image, sizeof image) == 0, "nothing moves");
}

/* Every number and reason has words of its own, and other numbers have some too. */
static void texts(void)
{
    unsigned n, k;
    for (n = 0; n <= LAVUSHMIR_BAD_ROOM + 1; n++)
        for (k = 0; k < n; k++)
            check(strcmp(lavushmir_text(n), lavushmir_text(k)) != 0, "two numbers, one text");
    for (n = 0; n <= LAVUSHMIR_TWO_MATCHES + 1; n++)
        for (k = 0; k < n; k++)
            check(strcmp(lavushmir_reason_text(n), lavushmir_reason_text(k)) != 0,
                  "two reasons, one text");
    check(strcmp(lavushmir_text(255), lavushmir_text(LAVUSHMIR_BAD_ROOM + 1)) == 0,
          "a number that there is not");
}

int main(void)
{
    limits();
    words();
    words_after_a_step();
    words_in_a_slot();
    two_matches();
    texts();
    return checked("the header");
}
