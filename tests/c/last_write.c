/* Last write from C99, by the struct of all buffers: what it tells, and each refusal. */

#include "check.h"
#include "lavushmir.h"

#include <string.h>

enum { ROM = 32, FRAMES = 2, RAM = FRAMES * LAVUSHMIR_FRAME_BYTES, PAPER = 64, SLOTS = 6 };
enum { WORD = LAVUSHMIR_RAM_ADDRESS, OTHER = LAVUSHMIR_RAM_ADDRESS + LAVUSHMIR_FRAME_BYTES };

static const uint8_t program[ROM] = {
    0x00, 0x20, 0x08, 0x3C, /* lui   $8, 0x2000            */
    0x19, 0x00, 0x09, 0x24, /* addiu $9, $0, 25            */
    0x00, 0x00, 0x09, 0xAD, /* sw    $9, 0($8)    clock 3  */
    0x00, 0x10, 0x09, 0xAD, /* sw    $9, 0x1000($8)     4  */
    0x01, 0x00, 0x09, 0xA1, /* sb    $9, 1($8)          5  */
    0x00, 0x00, 0x09, 0xA1, /* sb    $9, 0($8): no change  */
    0x00, 0x00, 0x00, 0x00, /* nop                         */
    0x00, 0x00, 0x00, 0x00, /* nop                         */
};

struct machine {
    uint8_t image[LAVUSHMIR_IMAGE_BYTES], ram[RAM], paper[PAPER];
    uint8_t journal[SLOTS * LAVUSHMIR_RECORD_BYTES], frames[FRAMES * LAVUSHMIR_INDEX_ENTRY_BYTES];
};
static struct machine m, kept;
static uint8_t told[LAVUSHMIR_LAST_WRITE_BYTES + 1];
static struct lavushmir_buffers b;

static void prepare(uint64_t steps)
{
    memset(&m, 0, sizeof m);
    b.image = m.image, b.image_bytes = sizeof m.image;
    b.execution_rom = program, b.execution_rom_bytes = ROM;
    b.bootstrap_rom = program, b.bootstrap_rom_bytes = ROM;
    b.ram = m.ram, b.ram_bytes = RAM;
    b.paper = m.paper, b.paper_bytes = PAPER;
    b.journal = m.journal, b.journal_bytes = sizeof m.journal;
    b.index = m.frames, b.index_bytes = sizeof m.frames;
    check(lavushmir_buffers_reset(&b, 1, 1, 0) == LAVUSHMIR_DONE, "reset");
    check(lavushmir_steps(lavushmir_buffers_run(&b, steps, 0)) == steps, "run");
}

/* Asks without a change of any lent byte, and of the byte behind the answer. */
static uint64_t ask(uint64_t address)
{
    uint64_t answer;
    memset(told, 0xB7, sizeof told);
    memcpy(&kept, &m, sizeof m);
    answer = lavushmir_buffers_last_write(&b, address, told);
    check(memcmp(&kept, &m, sizeof m) == 0, "nothing but the answer is written");
    check(told[LAVUSHMIR_LAST_WRITE_BYTES] == 0xB7, "nor the byte behind it");
    return answer;
}

static void tells(uint64_t address, uint32_t ago, uint64_t clock, uint32_t old, uint32_t now,
                  const char *what)
{
    check(ask(address) == (uint64_t)ago << 32, what);
    check(lavushmir_last_write_clock(told) == clock, what);
    check(lavushmir_last_write_old(told) == old, what);
    check(lavushmir_last_write_new(told) == now, what);
}

static void refuses(uint64_t answer, unsigned number, const char *what)
{
    size_t i, wrong = 0;
    check(answer == number, what);
    for (i = 0; i < sizeof told; i++)
        wrong += told[i] != 0xB7;
    check(wrong == 0, what);
}

static void answers(void)
{
    prepare(6);
    tells(WORD, 2, 5, 25, 0x1919, "SB changed the word, and the equal one did not");
    tells(OTHER, 3, 4, 0, 25, "SW changed the other frame");
    tells(WORD + 4, 0, 0, 0, 0, "the next word: none on hand");
    check(lavushmir_index_clock(m.frames, 0) == 5 && lavushmir_index_clock(m.frames, 1) == 4,
          "both frames in the index");
    check(lavushmir_buffers_take_back(&b, 2) == (uint64_t)2 << 32, "just before SB");
    tells(WORD, 2, 3, 0, 25, "the change before it");
    check(lavushmir_index_clock(m.frames, 0) == 3, "and of the frame");

    prepare(6);
    check(lavushmir_steps(lavushmir_buffers_run(&b, 2, 0)) == 2, "two more, and two fall off");
    tells(OTHER, 5, 4, 0, 25, "still on hand");
    b.journal_bytes = 0;
    m.image[5 + 4 * LAVUSHMIR_WORD_ON_HAND + 3] = m.image[5 + 4 * LAVUSHMIR_WORD_NEXT_SLOT + 3] = 0;
    memset(m.frames, 0xFF, sizeof m.frames);
    tells(OTHER, 0, 0, 0, 0, "no journal, and any index: none on hand");
}

static void refusals(void)
{
    static const uint64_t bad[] = {WORD + 1, WORD + 2, WORD + 3, WORD - 4, 0, WORD + RAM,
                                   ((uint64_t)1 << 32) + WORD, UINT64_MAX - 3};
    size_t i;
    prepare(6);
    for (i = 0; i < sizeof bad / sizeof *bad; i++)
        refuses(ask(bad[i]), LAVUSHMIR_BAD_WORD, "an address that is no word of RAM");
    memset(told, 0xB7, sizeof told);
    for (i = 0; i <= sizeof told; i += sizeof told)
        refuses(lavushmir_last_write(m.image, sizeof m.image, m.ram, RAM, m.paper, PAPER, m.journal,
                                     sizeof m.journal, m.frames, sizeof m.frames, WORD, told, i),
                LAVUSHMIR_BAD_ROOM, "an answer that is not 16 bytes");
    b.index_bytes -= 16;
    refuses(ask(WORD + 1), LAVUSHMIR_BAD_INDEX, "10 before 11");
    m.journal[255] = 1;
    refuses(ask(WORD + 1), LAVUSHMIR_BAD_RECORD, "8 before 10, of the oldest record on hand");
    m.image[0] ^= 1;
    refuses(ask(WORD + 1), LAVUSHMIR_BAD_IMAGE, "5 before 8");
    b.journal_bytes -= 1;
    refuses(ask(WORD + 1), LAVUSHMIR_BAD_JOURNAL, "4 before 5");
    b.paper_bytes -= 1;
    refuses(ask(WORD + 1), LAVUSHMIR_BAD_PAPER, "3 before 4");
    b.ram_bytes -= 1;
    refuses(ask(WORD + 1), LAVUSHMIR_BAD_RAM, "1 before all others");
}

int main(void)
{
    answers();
    refusals();
    return checked("last write");
}
