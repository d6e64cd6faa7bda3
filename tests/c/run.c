/* Run from C99: four instructions to their end, and each refusal. */

#include "check.h"
#include "lavushmir.h"

#include <string.h>

enum { ROM = 16, RAM = 4096, PAPER = 64, JOURNAL = 1024, INDEX = 16, PC = 5 + 4 * 33 };

static const uint8_t program[ROM] = {
    0x00, 0x20, 0x08, 0x3C, /* lui   $8, 0x2000 */
    0x19, 0x00, 0x09, 0x24, /* addiu $9, $0, 25 */
    0x00, 0x00, 0x09, 0xAD, /* sw    $9, 0($8)  */
    0x0D, 0x00, 0x00, 0x00, /* break            */
};
static const uint8_t stopped_at[4] = {0x1F, 0xC0, 0x01, 0x80};

static uint8_t image[LAVUSHMIR_IMAGE_BYTES], ram[RAM], paper[PAPER], journal[JOURNAL];
static uint8_t frames[INDEX + 16];

static void prepare(void)
{
    memset(ram, 0xA1, RAM);
    memset(paper, 0xA2, PAPER);
    memset(journal, 0xA3, JOURNAL);
    memset(frames, 0xA4, sizeof frames);
    check(lavushmir_reset(image, sizeof image, frames, INDEX, 1, 1, 0xFF) == LAVUSHMIR_DONE,
          "reset");
}

static uint64_t run_with(size_t image_bytes, size_t rom, size_t ram_bytes, size_t paper_bytes,
                         size_t journal_bytes, size_t index_bytes, uint64_t budget)
{
    return lavushmir_run(image, image_bytes, program, rom, program, rom, ram, ram_bytes, paper,
                         paper_bytes, journal, journal_bytes, frames, index_bytes, budget, 1);
}

static uint64_t run(size_t image_bytes, size_t rom, size_t ram_bytes, size_t paper_bytes,
                    size_t journal_bytes, uint64_t budget)
{
    return run_with(image_bytes, rom, ram_bytes, paper_bytes, journal_bytes, INDEX, budget);
}

static void refuses(uint64_t answer, unsigned number, const char *what)
{
    size_t i, wrong = 0;
    check(answer == number, what);
    for (i = 0; i < RAM; i++)
        wrong += ram[i] != 0xA1;
    for (i = 0; i < PAPER; i++)
        wrong += paper[i] != 0xA2;
    for (i = 0; i < JOURNAL; i++)
        wrong += journal[i] != 0xA3;
    for (i = 0; i < sizeof frames; i++)
        wrong += frames[i] != (i < INDEX ? 0 : 0xA4);
    check(wrong == 0, what);
}

int main(void)
{
    uint64_t answer;
    uint8_t before[LAVUSHMIR_IMAGE_BYTES];

    prepare();
    answer = run(sizeof image, ROM, RAM, PAPER, JOURNAL, 1000000);
    check(lavushmir_number(answer) == LAVUSHMIR_DONE, "the run is done");
    check(lavushmir_reason(answer) == LAVUSHMIR_EXCEPTION, "BREAK ends it");
    check(lavushmir_steps(answer) == 4, "after four steps");
    check(ram[0] == 25 && ram[1] == 0 && ram[2] == 0 && ram[3] == 0, "SW has stored 25");
    check(ram[4] == 0xA1, "and no byte more");
    check(memcmp(image + PC, stopped_at, 4) == 0, "PC stands at the vector");
    check(lavushmir_index_has(frames, 0) == 1, "SW changed the frame");
    check(lavushmir_index_clock(frames, 0) == 3, "at clock 3");
    check(lavushmir_word(frames + 12) == 0, "the fourth word is 0");
    check(frames[INDEX] == 0xA4, "and no byte more");
    run(sizeof image, ROM, RAM, PAPER, JOURNAL, 1);
    check(lavushmir_index_has(frames, 0) == 0, "SW is not on hand any more");

    prepare();
    answer = run(sizeof image, ROM, RAM, 0, 0, 2);
    check(lavushmir_reason(answer) == LAVUSHMIR_BUDGET_SPENT, "a budget of two is spent");
    check(lavushmir_steps(answer) == 2, "after two steps");

    prepare();
    memcpy(before, image, sizeof image);
    refuses(run(740, 6, RAM - 1, 4, 100, 1000001), LAVUSHMIR_BAD_RAM, "1 before all others");
    refuses(run(740, 6, RAM, 4, 100, 1000001), LAVUSHMIR_BAD_ROM, "2 before 3 to 6");
    refuses(run(740, ROM, RAM, 4, 100, 1000001), LAVUSHMIR_BAD_PAPER, "3 before 4 to 6");
    refuses(run(740, ROM, RAM, 8, 256, 1000001), LAVUSHMIR_BAD_JOURNAL, "4 before 5 and 6");
    refuses(run(740, ROM, RAM, 8, 512, 1000001), LAVUSHMIR_BAD_IMAGE, "5 before 6");
    refuses(run(741, ROM, RAM, 8, 512, 1000001), LAVUSHMIR_BAD_PARAMETER, "6");
    refuses(run(741, ROM, RAM, 8, 512, (uint64_t)1 << 32), LAVUSHMIR_BAD_PARAMETER, "budget 2^32");
    refuses(run_with(741, ROM, RAM, 8, 512, 0, 1000001), LAVUSHMIR_BAD_PARAMETER, "6 before 10");
    refuses(run_with(741, ROM, RAM, 8, 512, 0, 1), LAVUSHMIR_BAD_INDEX, "no index");
    refuses(run_with(741, ROM, RAM, 8, 512, INDEX - 1, 1), LAVUSHMIR_BAD_INDEX, "index too short");
    refuses(run_with(741, ROM, RAM, 8, 512, INDEX + 16, 1), LAVUSHMIR_BAD_INDEX, "index too long");
    check(memcmp(before, image, sizeof image) == 0, "refusals leave the image");
    image[0] ^= 1;
    refuses(run(741, ROM, RAM, 8, 512, 1), LAVUSHMIR_BAD_IMAGE, "a damaged image");

    return checked("run");
}
