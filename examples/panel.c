/*
 * A service panel of one screen, over include/lavushmir.h. Nothing else of the
 * project has to be known to read it.
 *
 *     tools/archive lavushmir
 *     cc -std=c99 -I include examples/panel.c target/staticlib/liblavushmir.a
 *
 * The archive keeps no memory of its own. A machine is seven buffers of yours,
 * lent anew to each call: the state image (registers, clocks, printers), the
 * two ROMs, RAM, the printers' paper, the journal, in which each step leaves a
 * record so that it can be taken back, and the index, which says for each frame
 * of RAM which step changed it last. struct lavushmir_buffers holds them all.
 */
#include "lavushmir.h"

#include <stdio.h>
#include <stdlib.h>
#include <string.h>

/* The sizes are yours to choose, within what document 01 allows. */
enum { ROM_BYTES = 64, FRAMES = 1, PAPER_BYTES = 8 * 32, RECORDS = 200, PIECE = 50 };

struct machine {
    uint8_t image[LAVUSHMIR_IMAGE_BYTES];
    uint8_t execution_rom[ROM_BYTES], bootstrap_rom[ROM_BYTES];
    uint8_t ram[FRAMES * LAVUSHMIR_FRAME_BYTES], paper[PAPER_BYTES];
    uint8_t journal[RECORDS * LAVUSHMIR_RECORD_BYTES];
    uint8_t index[FRAMES * LAVUSHMIR_INDEX_ENTRY_BYTES];
};

/* The same as the calls are lent it: each buffer and its length. */
static struct lavushmir_buffers lent(struct machine *m)
{
    struct lavushmir_buffers b = {
        m->image, sizeof m->image, m->execution_rom, sizeof m->execution_rom,
        m->bootstrap_rom, sizeof m->bootstrap_rom, m->ram, sizeof m->ram, m->paper,
        sizeof m->paper, m->journal, sizeof m->journal, m->index, sizeof m->index};
    return b;
}

/* The image is big-endian on every machine, so that it can be stored and moved. */
static unsigned image_word(const struct machine *m, unsigned place)
{
    return (unsigned)lavushmir_image_word(m->image, place);
}

/* The machine starts in its bootstrap ROM. This program prints A, B, C .. */
static const uint32_t program[] = {
    0x3C081000, /*       lui   $8, 0x1000         the device area                */
    0x3C092000, /*       lui   $9, 0x2000         RAM                            */
    0x240A0041, /*       addiu $10, $0, 'A'                                      */
    0xAD0A01D8, /* next: sw    $10, 0x1D8($8)     printer 0, DATA0: the letter   */
    0x240B0002, /*       addiu $11, $0, 2                                        */
    0xAD0B01D4, /*       sw    $11, 0x1D4($8)     COMMAND: print it              */
    0x8D0B01D0, /* busy: lw    $11, 0x1D0($8)     STATUS                         */
    0x256BFFFD, /*       addiu $11, $11, -3       3 is busy                      */
    0x1160FFFD, /*       beq   $11, $0, busy                                     */
    0x00000000, /*       nop                                                     */
    0xAD2A0000, /*       sw    $10, 0($9)         the last letter, in RAM        */
    0x254A0001, /*       addiu $10, $10, 1                                       */
    0x1000FFF6, /*       b     next                                              */
    0x00000000, /*       nop                                                     */
};

/* Words in ROM and RAM are little-endian. */
static void lay_program(struct machine *m)
{
    size_t i;
    for (i = 0; i < sizeof program; i++)
        m->bootstrap_rom[i] = (uint8_t)(program[i / 4] >> i % 4 * 8);
}

/* Every answer has a number: 0 is done, all others are refusals. */
static void must_be_done(uint64_t answer, const char *call)
{
    if (lavushmir_number(answer) != LAVUSHMIR_DONE) {
        printf("%s is refused: %s\n", call, lavushmir_text(lavushmir_number(answer)));
        exit(1);
    }
}

/* Time scale 1, a printer delay of 20 steps, and printer 0 installed. */
static void reset(const struct lavushmir_buffers *b)
{
    must_be_done(lavushmir_buffers_reset(b, 1, 20, 0x01), "reset");
}

/* A piece at a time, so that a panel stays awake; a call runs at most 1,000,000. */
static void run(const struct lavushmir_buffers *b, uint64_t steps)
{
    while (steps > 0) {
        uint64_t answer = lavushmir_buffers_run(b, steps < PIECE ? steps : PIECE, 0);
        must_be_done(answer, "run");
        steps -= lavushmir_steps(answer);
    }
}

/* Which step wrote RAM's first word, and when its frame was changed last. */
static void show_last_write(const struct lavushmir_buffers *b)
{
    uint8_t told[LAVUSHMIR_LAST_WRITE_BYTES];
    uint64_t answer = lavushmir_buffers_last_write(b, LAVUSHMIR_RAM_ADDRESS, told);
    must_be_done(answer, "last write");
    if (lavushmir_steps(answer) == 0)
        printf("RAM's first word: no step on hand changed it\n\n");
    else
        printf("RAM's first word: changed %u steps ago, at clock %u, from %08x to %08x\n"
               "its frame: last changed at clock %u\n\n",
               (unsigned)lavushmir_steps(answer), (unsigned)lavushmir_last_write_clock(told),
               (unsigned)lavushmir_last_write_old(told), (unsigned)lavushmir_last_write_new(told),
               (unsigned)lavushmir_index_clock(b->index, 0));
}

static void show(const struct machine *m, const char *title)
{
    unsigned i;
    printf("== %s\n", title);
    printf("PC %08x   Status %08x   Cause %08x   clock %u   on hand %u\n",
           image_word(m, LAVUSHMIR_WORD_PC), image_word(m, LAVUSHMIR_WORD_STATUS),
           image_word(m, LAVUSHMIR_WORD_CAUSE), (unsigned)lavushmir_clock(m->image),
           image_word(m, LAVUSHMIR_WORD_ON_HAND));
    for (i = 0; i < 32; i++) { /* register 0 is always 0 and not in the image */
        if (i % 8 == 0)
            printf("$%-3u", i);
        printf(" %08x", i == 0 ? 0 : image_word(m, LAVUSHMIR_WORD_REGISTER_1 + i - 1));
        if (i % 8 == 7)
            printf("\n");
    }
    printf("RAM's first byte %02x   ", m->ram[0]);
    /* Printer 0 has the first eighth of the paper; its count, the last of its words,
       says how far. */
    printf("paper \"%.*s\"\n\n", (int)image_word(m, LAVUSHMIR_WORD_PRINTER + 4),
           (const char *)m->paper);
}

int main(void)
{
    static struct machine m, earlier; /* static: all 0, and off the stack */
    const struct lavushmir_buffers b = lent(&m);

    lay_program(&m);
    reset(&b);
    show(&m, "after the reset");
    run(&b, 180);
    show(&m, "after 180 steps");
    show_last_write(&b);

    earlier = m;
    must_be_done(lavushmir_buffers_take_back(&b, 100), "take-back");
    show(&m, "100 steps taken back: registers, clock, RAM and paper of step 80");
    show_last_write(&b);

    run(&b, 100);
    show(&m, "the same 100 steps again");
    printf("All bytes are as they were after 180 steps: %s\n",
           memcmp(&m, &earlier, sizeof m) == 0 ? "yes" : "no");

    /* A refusal writes nothing: the machine stays as it is. */
    if (lavushmir_number(lavushmir_buffers_take_back(&b, 181)) == LAVUSHMIR_NOT_ON_HAND)
        printf("Taking back 181 steps is refused: only 180 are on hand\n");
    return 0;
}
