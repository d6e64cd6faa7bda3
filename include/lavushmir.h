/*
 * Lavushmir: an emulator of a small MIPS I machine (uMPS) that can run
 * backwards, callable from C.
 *
 * For C99 and C++. Link with liblavushmir.a (x86-64). docs/MACHINE.md has the
 * rules of the machine, docs/RECORD.md the layout of a journal record,
 * examples/panel.c a small program over this header.
 *
 * Buffers. The caller owns every buffer and lends it for the length of one
 * call. A call keeps no pointer, allocates nothing and frees nothing. A buffer
 * is given as a pointer to its first byte and its length in bytes. The pointer
 * is never NULL, also where the length is 0, and needs no alignment. One buffer
 * must not be lent twice in the same call, nor may two lent buffers overlap.
 *
 * Threads. A call has no state of its own: no global variable, no lock. Calls
 * in several threads at once are fine as long as no buffer that one of them
 * writes is lent to another.
 *
 * Numbers are unsigned, and all 64 bits of them count: a time scale of
 * 2^32 + 1 is refused, not taken as 1.
 *
 * Answers are one 64-bit number with three parts. Take them apart with
 * lavushmir_number, lavushmir_reason and lavushmir_steps:
 *
 *     bits  0 to  7   the number: 0 done, 1 to 12 refused
 *     bits  8 to 15   the reason why a run stopped
 *     bits 32 to 63   the steps
 *     all others      0
 *
 * Refusals. A call tests only what it is given, and answers the lowest number
 * that applies. It tests before it writes: a refusal leaves every lent byte as
 * it was, and reports 0 steps and no reason. A call ends whatever it is given.
 *
 * One machine, seven buffers. The calls take many of them; struct
 * lavushmir_buffers, at the end of this header, holds all, and each call has an
 * inline function there that passes on what it needs.
 */
#ifndef LAVUSHMIR_H
#define LAVUSHMIR_H

#include <stddef.h>
#include <stdint.h>

#ifdef __cplusplus
extern "C" {
#endif

/* Goes up by one with every change of this header that a caller can see. */
#define LAVUSHMIR_VERSION 6

/* Limits. A length that breaks one of them is refused. */
#define LAVUSHMIR_FRAME_BYTES 4096      /* RAM is made of whole frames */
#define LAVUSHMIR_MOST_FRAMES 4096      /* at least 1 */
#define LAVUSHMIR_LEAST_ROM_BYTES 4     /* of either ROM, a multiple of 4 */
#define LAVUSHMIR_MOST_ROM_BYTES 65536
#define LAVUSHMIR_MOST_PAPER_BYTES 65536 /* a multiple of 8, may be 0 */
#define LAVUSHMIR_RECORD_BYTES 512      /* a journal is made of whole records */
#define LAVUSHMIR_MOST_JOURNAL_BYTES 16777216 /* 32,768 records, may be 0 */
#define LAVUSHMIR_INDEX_ENTRY_BYTES 16  /* an index has an entry for each frame */
#define LAVUSHMIR_LAST_WRITE_BYTES 16   /* what lavushmir_last_write writes */
#define LAVUSHMIR_MOST_BUDGET 1000000   /* steps of one run */
#define LAVUSHMIR_MOST_TIME_SCALE 255   /* at least 1 */
#define LAVUSHMIR_MOST_PRINTER_DELAY 65535 /* at least 1 */
#define LAVUSHMIR_PRINTERS 8
#define LAVUSHMIR_TLB_ENTRIES 16

/* Where the ROMs and RAM begin in the machine's physical addresses. */
#define LAVUSHMIR_EXECUTION_ROM_ADDRESS 0x00000000u
#define LAVUSHMIR_BOOTSTRAP_ROM_ADDRESS 0x1FC00000u
#define LAVUSHMIR_RAM_ADDRESS 0x20000000u

/*
 * The state image: a length word (the bytes behind it), a version byte, then
 * 184 words, all big-endian. docs/MACHINE.md lists the rules that it keeps.
 */
#define LAVUSHMIR_IMAGE_BYTES 741
#define LAVUSHMIR_IMAGE_VERSION 3
#define LAVUSHMIR_IMAGE_WORDS 184

/* An image of version 2, and the records of its journal, which lavushmir_convert
   takes and no other call. */
#define LAVUSHMIR_OLD_IMAGE_BYTES 509
#define LAVUSHMIR_OLD_RECORD_BYTES 256

/* The places of the image's words, for lavushmir_image_word. */
enum {
    LAVUSHMIR_WORD_REGISTER_1 = 0, /* register n is word n - 1, to 31 */
    LAVUSHMIR_WORD_HI = 31,
    LAVUSHMIR_WORD_LO = 32,
    LAVUSHMIR_WORD_PC = 33,
    LAVUSHMIR_WORD_NEXT_PC = 34,
    LAVUSHMIR_WORD_INDEX = 35, /* CP0's register, not the index of frames */
    LAVUSHMIR_WORD_RANDOM = 36,
    LAVUSHMIR_WORD_ENTRY_HI = 37,
    LAVUSHMIR_WORD_ENTRY_LO = 38,
    LAVUSHMIR_WORD_BAD_VADDR = 39,
    LAVUSHMIR_WORD_STATUS = 40,
    LAVUSHMIR_WORD_CAUSE = 41,
    LAVUSHMIR_WORD_EPC = 42,
    LAVUSHMIR_WORD_TLB = 43, /* entry i: words 43 + 2 i (high), 44 + 2 i (low) */
    LAVUSHMIR_WORD_CLOCK_HIGH = 75,
    LAVUSHMIR_WORD_CLOCK_LOW = 76,
    LAVUSHMIR_WORD_TIMER = 77,
    LAVUSHMIR_WORD_TIME_SCALE = 78,
    LAVUSHMIR_WORD_PRINTER_DELAY = 79,
    LAVUSHMIR_WORD_INSTALLED = 80,
    LAVUSHMIR_WORD_PRINTER = 81, /* printer n: from word 81 + 5 n on STATUS,
                                    COMMAND, DATA0, ticks left, paper count */
    LAVUSHMIR_WORD_PENDING = 121,
    LAVUSHMIR_WORD_ON_HAND = 122,
    LAVUSHMIR_WORD_NEXT_SLOT = 123, /* the journal's, no branch's */
    LAVUSHMIR_WORD_SLOT_FLAG = 124, /* 1: the next step is a branch's slot */
    LAVUSHMIR_WORD_BRANCH = 125, /* the address of that branch; 0 without one */
    /* Disks. No disk can be installed yet: these words are 0. */
    LAVUSHMIR_WORD_DISKS_INSTALLED = 126,
    LAVUSHMIR_WORD_DISK = 127, /* disk n, 0 to 7: from word 127 + 7 n on STATUS,
                                  COMMAND, DATA0, DATA1, ticks left, words left,
                                  cylinder */
    LAVUSHMIR_WORD_DISKS_PENDING = 183
};

/* The big-endian word at `at`, as image, index and last_write's answer have them. */
static inline uint32_t lavushmir_word(const uint8_t *at)
{
    return (uint32_t)at[0] << 24 | (uint32_t)at[1] << 16 | (uint32_t)at[2] << 8 | (uint32_t)at[3];
}

/* Word `place` (0 to 183) of an image of LAVUSHMIR_IMAGE_BYTES bytes. */
static inline uint32_t lavushmir_image_word(const uint8_t *image, unsigned place)
{
    return lavushmir_word(image + 5 + (size_t)4 * place);
}

/* The image's clock, all 64 bits of it: it goes up by one with each step. */
static inline uint64_t lavushmir_clock(const uint8_t *image)
{
    return (uint64_t)lavushmir_image_word(image, LAVUSHMIR_WORD_CLOCK_HIGH) << 32 |
           lavushmir_image_word(image, LAVUSHMIR_WORD_CLOCK_LOW);
}

/*
 * The index: for each frame of RAM, in their order, which step on hand last
 * changed a byte of it. An entry is four big-endian words: 1, the clock of that
 * step in two words (high, low), and 0; or four words of 0, where no step on hand
 * changed the frame. The clock of a step is the one that it leaves, after its own
 * tick: the newest step has the image's clock, the one before it that less 1.
 * A store of the value that was there changes nothing.
 *
 * Reset empties the index, run and take-back keep it: lend them the same one, as
 * the call before left it. Any other bytes of the right length are borne, too:
 * nothing is refused because of them, but the entries then say what nobody knows.
 */

/* Whether a step on hand changed frame `frame` (0: the first of RAM). */
static inline int lavushmir_index_has(const uint8_t *index, size_t frame)
{
    return lavushmir_word(index + LAVUSHMIR_INDEX_ENTRY_BYTES * frame) == 1;
}

/* The clock of the last such step; 0 where there is none. */
static inline uint64_t lavushmir_index_clock(const uint8_t *index, size_t frame)
{
    const uint8_t *at = index + LAVUSHMIR_INDEX_ENTRY_BYTES * frame;
    return (uint64_t)lavushmir_word(at + 4) << 32 | lavushmir_word(at + 8);
}

/* The number in an answer. */
enum {
    /* done */
    LAVUSHMIR_DONE = 0,
    /* RAM is not 1 to 4,096 whole frames of 4,096 bytes */
    LAVUSHMIR_BAD_RAM = 1,
    /* either ROM is not 4 to 65,536 bytes, a multiple of 4 */
    LAVUSHMIR_BAD_ROM = 2,
    /* paper is over 65,536 bytes or not a multiple of 8 (0 is allowed) */
    LAVUSHMIR_BAD_PAPER = 3,
    /* journal is over 16,777,216 bytes or not a multiple of 512, for convert of 256
       (0 is allowed) */
    LAVUSHMIR_BAD_JOURNAL = 4,
    /* image is not 741 bytes, or (not for reset) breaks a rule of the image;
       convert: the old image is not 509 bytes or breaks a rule of version 2, or
       image is not 741 bytes */
    LAVUSHMIR_BAD_IMAGE = 5,
    /* reset: time scale not 1 to 255, printer delay not 1 to 65,535, installed
       map over 255; run: budget over 1,000,000 */
    LAVUSHMIR_BAD_PARAMETER = 6,
    /* take-back asks for more steps than are on hand */
    LAVUSHMIR_NOT_ON_HAND = 7,
    /* one of the records that take-back asks for is not well formed; last_write:
       one of those on hand */
    LAVUSHMIR_BAD_RECORD = 8,
    /* the address asked for is not a multiple of 4 or lies in neither ROM;
       listed for completeness, no call of this header answers it */
    LAVUSHMIR_BAD_ADDRESS = 9,
    /* index is not 16 bytes for each frame of RAM; reset, which is lent no RAM:
       not 16 bytes for each of 1 to 4,096 frames */
    LAVUSHMIR_BAD_INDEX = 10,
    /* last_write: the address is not a multiple of 4 or lies outside RAM */
    LAVUSHMIR_BAD_WORD = 11,
    /* last_write: the room for its answer is not 16 bytes */
    LAVUSHMIR_BAD_ROOM = 12
};

/* The reason in an answer: why a run stopped. */
enum {
    /* refused, or a call that does not run: all but run */
    LAVUSHMIR_NO_REASON = 0,
    /* the budget is spent */
    LAVUSHMIR_BUDGET_SPENT = 1,
    /* the last step entered an exception, and the run was asked to stop there */
    LAVUSHMIR_EXCEPTION = 2,
    /* the fetch, load or store of the next step meets two entries of the
       translation table that match; that step was not taken */
    LAVUSHMIR_TWO_MATCHES = 3
};

/* The answer's number in words: what is wrong, in one line. */
static inline const char *lavushmir_text(unsigned number)
{
    switch (number) {
    case LAVUSHMIR_DONE: return "done";
    case LAVUSHMIR_BAD_RAM: return "RAM is not 1 to 4,096 whole frames of 4,096 bytes";
    case LAVUSHMIR_BAD_ROM: return "a ROM is not 4 to 65,536 bytes, a multiple of 4";
    case LAVUSHMIR_BAD_PAPER: return "paper is over 65,536 bytes or not a multiple of 8";
    case LAVUSHMIR_BAD_JOURNAL:
        return "journal is over 16,777,216 bytes or not a multiple of 512 (convert: of 256)";
    case LAVUSHMIR_BAD_IMAGE: return "image is not of its length, or breaks a rule of the image";
    case LAVUSHMIR_BAD_PARAMETER: return "a number is out of its range";
    case LAVUSHMIR_NOT_ON_HAND: return "more steps are asked for than are on hand";
    case LAVUSHMIR_BAD_RECORD: return "a record of the journal is not well formed";
    case LAVUSHMIR_BAD_ADDRESS:
        return "the address is not a multiple of 4 or lies in neither ROM";
    case LAVUSHMIR_BAD_INDEX: return "index is not 16 bytes for each frame of RAM";
    case LAVUSHMIR_BAD_WORD: return "the address is not a multiple of 4 or lies outside RAM";
    case LAVUSHMIR_BAD_ROOM: return "the room for the answer is not 16 bytes";
    default: return "no number of this header";
    }
}

/* The answer's reason in words. */
static inline const char *lavushmir_reason_text(unsigned reason)
{
    switch (reason) {
    case LAVUSHMIR_NO_REASON: return "no reason";
    case LAVUSHMIR_BUDGET_SPENT: return "the budget is spent";
    case LAVUSHMIR_EXCEPTION: return "the last step entered an exception";
    case LAVUSHMIR_TWO_MATCHES: return "two entries of the table match at the next step";
    default: return "no reason of this header";
    }
}

/* The number for yes or no: LAVUSHMIR_DONE or one of the refusals. */
static inline unsigned lavushmir_number(uint64_t answer)
{
    return (unsigned)(answer & 0xFF);
}

/* Why a run stopped. */
static inline unsigned lavushmir_reason(uint64_t answer)
{
    return (unsigned)(answer >> 8 & 0xFF);
}

/* How many steps were run or taken back; last_write: how many steps ago. */
static inline uint32_t lavushmir_steps(uint64_t answer)
{
    return (uint32_t)(answer >> 32);
}

/*
 * Reset: writes the state of a machine that has just been switched on.
 *
 * image          lent for writing, LAVUSHMIR_IMAGE_BYTES bytes. What it holds
 *                before the call does not matter.
 * image_bytes    the length of that buffer.
 * index          lent for writing, 16 bytes for each frame of the RAM that the
 *                machine will be lent. What it holds does not matter either.
 * index_bytes    the length of that buffer.
 * time_scale     1 to 255, the word of that name on the machine's bus.
 * printer_delay  1 to 65,535, the steps that a printer is busy for.
 * installed      0 to 255, bit n on where printer n is installed.
 *
 * Answers, the first that applies:
 *   LAVUSHMIR_BAD_IMAGE      image_bytes is not 741. Reset looks at the length
 *                            only, never at what the image holds.
 *   LAVUSHMIR_BAD_PARAMETER  one of the three parameters is out of its range.
 *   LAVUSHMIR_BAD_INDEX      index_bytes is not 16 times 1 to 4,096. Reset is lent
 *                            no RAM, so it does not see whether the two fit.
 *   LAVUSHMIR_DONE           all 741 bytes, and all of the index, are written.
 * Each comes with 0 steps and LAVUSHMIR_NO_REASON, so that the whole answer is
 * equal to its number. A refusal leaves every byte as it was.
 *
 * The index then holds 0 everywhere, and the image too, but for: length word 737,
 * version 3, PC 0x1FC00000, next PC 0x1FC00004, Status 0x10400000, Random
 * 0x00000F00, timer 0xFFFFFFFF, the three parameters, and STATUS 1 for each
 * installed printer. No step is on hand: what the journal holds can not be taken
 * back.
 *
 * RAM, paper and journal are not lent to reset and stay as they are. The host
 * clears them itself if it wants to.
 */
uint64_t lavushmir_reset(uint8_t *image, size_t image_bytes,
                         uint8_t *index, size_t index_bytes,
                         uint64_t time_scale, uint64_t printer_delay, uint64_t installed);

/*
 * Run: some steps of the machine that the image holds.
 *
 * image                the state: read, and written where the run is done.
 * execution_rom,       the two ROMs: 4 to 65,536 bytes each, a multiple of 4.
 * bootstrap_rom        Only read.
 * ram                  1 to 4,096 frames of 4,096 bytes: the bytes from physical
 *                      address 0x20000000 on.
 * paper                what the printers print on, an eighth for each: up to
 *                      65,536 bytes, a multiple of 8. May be empty.
 * journal              room for the records of the newest steps, 512 bytes for
 *                      each: up to 16,777,216 bytes. May be empty: then no step
 *                      can be taken back.
 * index                which step on hand last changed each frame of ram: 16
 *                      bytes for each. Read, and written where the run is done.
 * budget               the most steps to run, 0 to 1,000,000.
 * stop_at_exceptions   0: go on; any other number: stop after the first step
 *                      that enters an exception (an interrupt is one).
 *
 * Answers, the first that applies:
 *   LAVUSHMIR_BAD_RAM        the length of ram is not allowed.
 *   LAVUSHMIR_BAD_ROM        the length of a ROM is not allowed.
 *   LAVUSHMIR_BAD_PAPER      the length of paper is not allowed.
 *   LAVUSHMIR_BAD_JOURNAL    the length of journal is not allowed.
 *   LAVUSHMIR_BAD_IMAGE      image_bytes is not 741, or the image breaks a rule.
 *   LAVUSHMIR_BAD_PARAMETER  budget is over 1,000,000.
 *   LAVUSHMIR_BAD_INDEX      index_bytes is not 16 for each frame of ram.
 *   LAVUSHMIR_DONE           with the steps that were really run, and
 *                            LAVUSHMIR_BUDGET_SPENT, LAVUSHMIR_EXCEPTION or
 *                            LAVUSHMIR_TWO_MATCHES. A run that ends with an
 *                            exception in the last step of its budget, and was
 *                            asked to stop there, answers LAVUSHMIR_EXCEPTION.
 *
 * Exceptions. A step that enters one leaves in the image's EPC the address to go
 * back to: that of the instruction, and in the slot of a branch or jump (the step
 * after it, taken or not) that of the branch, with bit 31 of Cause (BD) on. This
 * holds for interrupts too. What the next step is, a slot or not, is in the image:
 * LAVUSHMIR_WORD_SLOT_FLAG and LAVUSHMIR_WORD_BRANCH.
 *
 * Two matches. A run stops before a step whose fetch, load or store meets two
 * entries of the translation table that match, also where no stop was asked for:
 * that is a fault of the machine's kernel. The step is not taken and not counted,
 * and nothing has moved: no clock, no printer, no record. If the budget is spent
 * as well, the reason is the budget. A step that is an interrupt entry fetches
 * nothing and is taken. The next run from there stops at once, with 0 steps. Look
 * at the image's table (LAVUSHMIR_WORD_TLB), and take back steps to see which of
 * them wrote the second entry.
 *
 * Lend the same journal, paper and index again in the next call on the same
 * image: the image counts the records that the journal holds, and the index
 * follows from both.
 */
uint64_t lavushmir_run(uint8_t *image, size_t image_bytes,
                       const uint8_t *execution_rom, size_t execution_rom_bytes,
                       const uint8_t *bootstrap_rom, size_t bootstrap_rom_bytes,
                       uint8_t *ram, size_t ram_bytes,
                       uint8_t *paper, size_t paper_bytes,
                       uint8_t *journal, size_t journal_bytes,
                       uint8_t *index, size_t index_bytes,
                       uint64_t budget, uint64_t stop_at_exceptions);

/*
 * Take-back: undoes the newest steps of the machine that the image holds, from
 * their records.
 *
 * image                the state: read, and written where the call is done.
 * ram                  as for run. Written where the call is done.
 * paper                as for run. Written where the call is done.
 * journal              the records of the newest steps. Only read: its bytes
 *                      stay, and the next run writes over them.
 * index                as for run. Written where the call is done: a frame that a
 *                      step taken back changed has the step before it on hand
 *                      that did, or none.
 * steps                how many steps to take back, from 0 to the steps on hand.
 *
 * Answers, the first that applies:
 *   LAVUSHMIR_BAD_RAM        the length of ram is not allowed.
 *   LAVUSHMIR_BAD_PAPER      the length of paper is not allowed.
 *   LAVUSHMIR_BAD_JOURNAL    the length of journal is not allowed.
 *   LAVUSHMIR_BAD_IMAGE      image_bytes is not 741, or the image breaks a rule.
 *   LAVUSHMIR_NOT_ON_HAND    steps is more than the image has on hand.
 *   LAVUSHMIR_BAD_RECORD     one of the records asked for is not well formed:
 *                            its bytes do not keep the layout of docs/RECORD.md,
 *                            or a place in it lies outside the lent RAM or
 *                            paper, or the image that it gives back breaks a
 *                            rule. Nothing is taken back, also where only the
 *                            last of several is bad.
 *   LAVUSHMIR_BAD_INDEX      index_bytes is not 16 for each frame of ram.
 *   LAVUSHMIR_DONE           with the steps that were taken back, which are all
 *                            that were asked for, and LAVUSHMIR_NO_REASON.
 *
 * What is given back is what the records say. They say the state before those
 * steps, but for the two words that count the journal's records (steps on hand
 * is lower by that many, next slot is turned back by as many), where:
 *
 *   - the image comes from a done reset and from runs and take-backs since, in
 *     any order and with any numbers, and
 *   - each of these was lent the same ROMs, RAM, paper, journal and index, as
 *     the call before left them, and nobody wrote to image, RAM, paper, journal
 *     or index in between.
 *
 * Then everything is as it was, the same steps run again leave the same state,
 * LAVUSHMIR_BAD_IMAGE and LAVUSHMIR_BAD_RECORD never come, and the index names
 * for each frame the last step on hand that changed it. A host that writes to RAM
 * itself, as to load a program, does so before the first run; or it puts 0 into
 * the image's word LAVUSHMIR_WORD_ON_HAND and into every byte of the index
 * afterwards, so that steps from before can neither be taken back nor named.
 */
uint64_t lavushmir_take_back(uint8_t *image, size_t image_bytes,
                             uint8_t *ram, size_t ram_bytes,
                             uint8_t *paper, size_t paper_bytes,
                             const uint8_t *journal, size_t journal_bytes,
                             uint8_t *index, size_t index_bytes,
                             uint64_t steps);

/*
 * Last write: which step on hand last altered one word of RAM, and from what to
 * what. Only `answer` is written.
 *
 * image, ram, paper,   as for run.
 * journal, index
 * address              the physical address of the word: 0x20000000 and its place
 *                      in ram, a multiple of 4.
 * answer               lent for writing, LAVUSHMIR_LAST_WRITE_BYTES bytes. What it
 *                      holds before the call does not matter.
 * answer_bytes         the length of that buffer.
 *
 * Answers, the first that applies:
 *   LAVUSHMIR_BAD_RAM        the length of ram is not allowed.
 *   LAVUSHMIR_BAD_PAPER      the length of paper is not allowed.
 *   LAVUSHMIR_BAD_JOURNAL    the length of journal is not allowed.
 *   LAVUSHMIR_BAD_IMAGE      image_bytes is not 741, or the image breaks a rule.
 *   LAVUSHMIR_BAD_RECORD     one of the records on hand is not well formed: taking
 *                            back all that is on hand would be refused for it.
 *   LAVUSHMIR_BAD_INDEX      index_bytes is not 16 for each frame of ram.
 *   LAVUSHMIR_BAD_WORD       address is not a multiple of 4 or lies outside ram.
 *   LAVUSHMIR_BAD_ROOM       answer_bytes is not 16.
 *   LAVUSHMIR_DONE           lavushmir_steps says how many steps ago it was: 1 is
 *                            the newest step, and taking back that many stands the
 *                            machine just before it. 0: none on hand.
 *
 * The answer is then four big-endian words: the clock of that step, high and low,
 * the word before it, and the word after it, which lavushmir_last_write_clock, _old
 * and _new below read. Where none is on hand, it is 16 bytes of 0.
 *
 * None on hand means exactly that no step on hand altered the word; an older one
 * may have. A store of the value that was there alters nothing. What is told is
 * what image, ram and journal say, whatever the index holds.
 */
uint64_t lavushmir_last_write(const uint8_t *image, size_t image_bytes,
                              const uint8_t *ram, size_t ram_bytes,
                              const uint8_t *paper, size_t paper_bytes,
                              const uint8_t *journal, size_t journal_bytes,
                              const uint8_t *index, size_t index_bytes,
                              uint64_t address, uint8_t *answer, size_t answer_bytes);

/* The clock of that step, after its own tick. */
static inline uint64_t lavushmir_last_write_clock(const uint8_t *answer)
{
    return (uint64_t)lavushmir_word(answer) << 32 | lavushmir_word(answer + 4);
}

/* The word before that step and after it, as the machine reads it. */
static inline uint32_t lavushmir_last_write_old(const uint8_t *answer)
{
    return lavushmir_word(answer + 8);
}

static inline uint32_t lavushmir_last_write_new(const uint8_t *answer)
{
    return lavushmir_word(answer + 12);
}

/*
 * Convert: makes an image of this version from one of the version before it, for
 * a machine that was kept from then. Every other call answers
 * LAVUSHMIR_BAD_IMAGE for such an image.
 *
 * old                  the image of version 2. Only read. One of version 1 is
 *                      refused: the version before this one converts it.
 * old_bytes            its length, LAVUSHMIR_OLD_IMAGE_BYTES.
 * image                lent for writing, LAVUSHMIR_IMAGE_BYTES bytes. What it
 *                      holds before the call does not matter.
 * image_bytes          the length of that buffer.
 * paper, journal       those of the machine, the journal with its records of 256
 *                      bytes: the old image is judged with their lengths. Only
 *                      read.
 *
 * Answers, the first that applies:
 *   LAVUSHMIR_BAD_PAPER      the length of paper is not allowed.
 *   LAVUSHMIR_BAD_JOURNAL    journal_bytes is over 16,777,216 or not a multiple of
 *                            256.
 *   LAVUSHMIR_BAD_IMAGE      old_bytes is not 509, or the old image breaks a rule
 *                            of version 2, or image_bytes is not 741.
 *   LAVUSHMIR_DONE           all 741 bytes of image have been written.
 * Each comes with 0 steps and LAVUSHMIR_NO_REASON, so that the whole answer is
 * equal to its number. A refusal leaves every byte of the image as it was.
 *
 * The image then holds every word of the old one, but for: length word 737,
 * version 3, steps on hand 0, next slot 0; and behind them 58 words of 0. No step
 * is on hand: what the journal holds can not be taken back, since its records are
 * of the version before. The host lends a journal of records of this version from
 * then on, of any allowed length, and an index of 0, which is the right one while
 * no step is on hand.
 */
uint64_t lavushmir_convert(const uint8_t *old, size_t old_bytes,
                           uint8_t *image, size_t image_bytes,
                           const uint8_t *paper, size_t paper_bytes,
                           const uint8_t *journal, size_t journal_bytes);

/*
 * All buffers of one machine, each with its length: fill this in once, and call
 * the machine by the functions below. Each passes on to the call of its name what
 * that call is lent, and answers what it answers. The struct itself is only read.
 * Fields that a call is not lent may be anything, pointers too.
 */
struct lavushmir_buffers {
    uint8_t *image;
    size_t image_bytes;
    const uint8_t *execution_rom;
    size_t execution_rom_bytes;
    const uint8_t *bootstrap_rom;
    size_t bootstrap_rom_bytes;
    uint8_t *ram;
    size_t ram_bytes;
    uint8_t *paper;
    size_t paper_bytes;
    uint8_t *journal;
    size_t journal_bytes;
    uint8_t *index;
    size_t index_bytes;
};

static inline uint64_t lavushmir_buffers_reset(const struct lavushmir_buffers *b,
                                               uint64_t time_scale, uint64_t printer_delay,
                                               uint64_t installed)
{
    return lavushmir_reset(b->image, b->image_bytes, b->index, b->index_bytes, time_scale,
                           printer_delay, installed);
}

static inline uint64_t lavushmir_buffers_run(const struct lavushmir_buffers *b, uint64_t budget,
                                             uint64_t stop_at_exceptions)
{
    return lavushmir_run(b->image, b->image_bytes, b->execution_rom, b->execution_rom_bytes,
                         b->bootstrap_rom, b->bootstrap_rom_bytes, b->ram, b->ram_bytes, b->paper,
                         b->paper_bytes, b->journal, b->journal_bytes, b->index, b->index_bytes,
                         budget, stop_at_exceptions);
}

static inline uint64_t lavushmir_buffers_take_back(const struct lavushmir_buffers *b,
                                                   uint64_t steps)
{
    return lavushmir_take_back(b->image, b->image_bytes, b->ram, b->ram_bytes, b->paper,
                               b->paper_bytes, b->journal, b->journal_bytes, b->index,
                               b->index_bytes, steps);
}

/* `answer` is LAVUSHMIR_LAST_WRITE_BYTES bytes, none of them one of the buffers'. */
static inline uint64_t lavushmir_buffers_last_write(const struct lavushmir_buffers *b,
                                                    uint64_t address, uint8_t *answer)
{
    return lavushmir_last_write(b->image, b->image_bytes, b->ram, b->ram_bytes, b->paper,
                                b->paper_bytes, b->journal, b->journal_bytes, b->index,
                                b->index_bytes, address, answer, LAVUSHMIR_LAST_WRITE_BYTES);
}

/* From `old`, which is not one of the buffers, to the image. The journal is the old
   one still. */
static inline uint64_t lavushmir_buffers_convert(const struct lavushmir_buffers *b,
                                                 const uint8_t *old, size_t old_bytes)
{
    return lavushmir_convert(old, old_bytes, b->image, b->image_bytes, b->paper, b->paper_bytes,
                             b->journal, b->journal_bytes);
}

#ifdef __cplusplus
}
#endif

#endif
