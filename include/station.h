/*
 * Station: the session of a technician with one machine, callable from C.
 *
 * For C99 and C++. Link with libstation.a (x86-64). The archive also has
 * lavushmir_convert of lavushmir.h, for a station of the version before.
 *
 * A station is a machine with its seven buffers: state image, execution ROM,
 * bootstrap ROM, RAM, paper, journal, index. What a person types is understood,
 * and what a person reads is laid out, behind the first two calls below; the C
 * side moves bytes between files, terminal and buffers, and never interprets
 * them. It is one loop:
 *
 *     event = STATION_EVENT_START;
 *     for (;;) {
 *         answer = station_panel_turn(session, event, in, in_bytes, out, ..);
 *         write the first station_bytes(answer) bytes of out
 *             to the stream station_stream(answer);
 *         do what station_wants(answer) names; the outcome is the next event
 *     }
 *
 * Buffers. The caller owns every buffer and lends it for the length of one
 * call. A call keeps no pointer, allocates nothing and frees nothing. A buffer
 * is given as a pointer to its first byte and its length in bytes. The pointer
 * is never NULL, also where the length is 0, and needs no alignment, but for
 * `session`. One buffer must not be lent twice in the same call, nor may two
 * lent buffers overlap.
 *
 * Any bytes, any numbers. No event at any moment, no bytes in any buffer and no
 * numbers in the session's words make a call fail: it always ends and answers.
 * A turn takes at most 100,000 steps of the machine for a run, and what it has
 * to do for one line otherwise, so that Ctrl-C is heard soon.
 *
 * Answers are one 64-bit number with four parts. Take them apart with
 * station_wants, station_status, station_stream and station_bytes:
 *
 *     bits  0 to  7   what the session wants: STATION_WANTS_INPUT and so on
 *     bits  8 to 15   the exit status (only with STATION_WANTS_END, else 0)
 *     bits 16 to 23   where the bytes go: 0 standard output, 1 standard error
 *     bits 32 to 63   how many bytes were written to `out`, from its start
 *     all others      0
 */
#ifndef STATION_H
#define STATION_H

#include <stddef.h>
#include <stdint.h>

#ifdef __cplusplus
extern "C" {
#endif

/* The words of a session. They are all 0 before the first turn, but for the
   three that the C side sets. The same words are lent to every turn. */
#define STATION_SESSION_WORDS 32

/* The longest line, without its line feed. A longer one is dropped, and told to
   the session as STATION_EVENT_TOO_LONG. */
#define STATION_LINE_BYTES 1024

/* How long `out` should be. A shorter one cuts what is shown, and no more. */
#define STATION_OUT_BYTES 65536

/* The length of the state image. */
#define STATION_IMAGE_BYTES 741

/* Words of the session that both sides know. All others belong to the session:
   the C side neither reads nor writes them. */
enum {
    /* Set by the C side before STATION_EVENT_START. */
    /* 1: a station was loaded; 0: there is none yet. After STATION_EVENT_MADE
       the session sets it to 1 itself, if the station was made. */
    STATION_WORD_IS_THERE = 0,
    /* 1: a person types, and sees prompt and progress; 0: a script, or the
       arguments */
    STATION_WORD_ON_TERMINAL = 1,
    /* 1: the one line comes from the program's arguments, joined by a space;
       STATION_EVENT_END_OF_INPUT follows it */
    STATION_WORD_ONE_COMMAND = 2,

    /* Set by the session where it wants STATION_WANTS_FILE, _MAKE or _OTHER. */
    /* A name: the bytes from NAME_FROM up to, and without, NAME_TO of the line
       that was given last. Never empty, and always within that line. */
    STATION_WORD_NAME_FROM = 3,
    STATION_WORD_NAME_TO = 4,
    /* A second name, for STATION_WANTS_MAKE only. */
    STATION_WORD_SECOND_FROM = 5,
    STATION_WORD_SECOND_TO = 6,
    /* For STATION_WANTS_MAKE only: the lengths of the buffers to lend. They are
       lengths that a machine allows: RAM 4,096 to 16,777,216 bytes, paper 0 to
       65,536, journal 0 to 16,777,216, index 16 to 65,536. */
    STATION_WORD_RAM_BYTES = 7,
    STATION_WORD_PAPER_BYTES = 8,
    STATION_WORD_JOURNAL_BYTES = 9,
    STATION_WORD_INDEX_BYTES = 10
};

/* Events: what has happened. `in` is empty where nothing else is said. */
enum {
    /* The first turn of a session. */
    STATION_EVENT_START = 0,

    /* After STATION_WANTS_INPUT. */
    /* `in` is one line, without its line feed, of at most STATION_LINE_BYTES. */
    STATION_EVENT_LINE = 1,
    /* There is no further line. */
    STATION_EVENT_END_OF_INPUT = 4,
    /* A line was longer than STATION_LINE_BYTES; it is dropped. */
    STATION_EVENT_TOO_LONG = 13,

    /* After STATION_WANTS_GO_ON: nothing has happened. */
    STATION_EVENT_GO_ON = 2,

    /* After STATION_WANTS_INPUT or _GO_ON: Ctrl-C came. A run ends with what it
       did; at the prompt there is a new prompt; a script ends. */
    STATION_EVENT_INTERRUPT = 3,

    /* After STATION_WANTS_FILE. */
    /* `in` is the bytes of the file. (Of one longer than 16,777,216 bytes, which
       fits no RAM, the first 16,777,217 will do.) */
    STATION_EVENT_FILE_READ = 5,
    /* Also after STATION_WANTS_MAKE: a file could not be read, and the C side has
       said which and why. */
    STATION_EVENT_FILE_MISSING = 6,

    /* After STATION_WANTS_MAKE: both ROM files are read, and are lent from this
       turn on; so are RAM, paper, journal and index of the lengths asked for, all
       0, and an image of STATION_IMAGE_BYTES. */
    STATION_EVENT_MADE = 7,

    /* After STATION_WANTS_SAVE: done; or not, and the C side has said why. */
    STATION_EVENT_SAVED = 8,
    STATION_EVENT_NOT_SAVED = 9,

    /* After STATION_WANTS_RESTORE: the generation before is lent from this turn
       on; or not, and the C side has said why. */
    STATION_EVENT_RESTORED = 10,
    STATION_EVENT_NOT_RESTORED = 11,

    /* After STATION_WANTS_OTHER: the station to compare with could not be read,
       and the C side has said why. */
    STATION_EVENT_OTHER_MISSING = 12
};

/* What the session wants. The C side writes what is in `out` first. */
enum {
    /* The next line: STATION_EVENT_LINE, _END_OF_INPUT, _INTERRUPT, _TOO_LONG. */
    STATION_WANTS_INPUT = 0,
    /* The next turn at once: STATION_EVENT_GO_ON, or _INTERRUPT where Ctrl-C
       came since the last turn. */
    STATION_WANTS_GO_ON = 1,
    /* A new generation is saved; the first makes the station: STATION_EVENT_SAVED
       or _NOT_SAVED. */
    STATION_WANTS_SAVE = 2,
    /* The program ends with station_status(answer). */
    STATION_WANTS_END = 3,
    /* The file named by the first name is read: STATION_EVENT_FILE_READ or
       _FILE_MISSING. */
    STATION_WANTS_FILE = 4,
    /* The execution ROM named by the first name and the bootstrap ROM named by
       the second are read, and buffers of the four lengths are made, all 0:
       STATION_EVENT_MADE or _FILE_MISSING. */
    STATION_WANTS_MAKE = 5,
    /* The station named by the first name is loaded into a second set of buffers,
       and station_compare_turn is called, whose answer takes the place of this
       one; or, where it can not be loaded, STATION_EVENT_OTHER_MISSING. */
    STATION_WANTS_OTHER = 6,
    /* The generation before the present one is saved as a new generation, and
       lent: STATION_EVENT_RESTORED or _NOT_RESTORED. */
    STATION_WANTS_RESTORE = 7
};

/* Exit statuses. The session answers the first four; the last is the C side's. */
enum {
    STATION_EXIT_DONE = 0,
    /* a line asked for what can not be done */
    STATION_EXIT_REFUSED = 1,
    /* the arguments are no command */
    STATION_EXIT_USAGE = 2,
    /* a file could not be read or written */
    STATION_EXIT_FILE = 3,
    /* another program holds the station */
    STATION_EXIT_HELD = 4
};

/* What the session wants: STATION_WANTS_INPUT and so on. */
static inline unsigned station_wants(uint64_t answer)
{
    return (unsigned)(answer & 0xFF);
}

/* The exit status, with STATION_WANTS_END. */
static inline unsigned station_status(uint64_t answer)
{
    return (unsigned)(answer >> 8 & 0xFF);
}

/* The stream for what is in `out`: 0 standard output, 1 standard error. */
static inline unsigned station_stream(uint64_t answer)
{
    return (unsigned)(answer >> 16 & 0xFF);
}

/* How many bytes of `out` are to be written: never more than out_bytes. */
static inline uint32_t station_bytes(uint64_t answer)
{
    return (uint32_t)(answer >> 32);
}

/*
 * One turn of a session.
 *
 * session    STATION_SESSION_WORDS words, read and written.
 * event      what has happened: STATION_EVENT_START and so on. A number that is
 *            none of them is taken as STATION_EVENT_GO_ON.
 * in         what came with the event: a line, or the bytes of a file.
 * out        lent for writing: what is to be shown.
 * image      the state image: read and written. Before there is a station, and
 * execution  so before STATION_EVENT_MADE, these seven may be of any length, 0 too.
 * bootstrap  The two ROMs are only read.
 * ram        read and written: the bytes from physical address 0x20000000 on.
 * paper      read and written: what the printers print on, an eighth for each.
 * journal    read and written: the records of the newest steps.
 * index      read and written: the last step on hand that changed each frame of RAM.
 *
 * Answers what is wanted next, with the bytes written to out.
 */
uint64_t station_panel_turn(uint64_t *session, uint64_t event,
                            const uint8_t *in, size_t in_bytes,
                            uint8_t *out, size_t out_bytes,
                            uint8_t *image, size_t image_bytes,
                            const uint8_t *execution, size_t execution_bytes,
                            const uint8_t *bootstrap, size_t bootstrap_bytes,
                            uint8_t *ram, size_t ram_bytes,
                            uint8_t *paper, size_t paper_bytes,
                            uint8_t *journal, size_t journal_bytes,
                            uint8_t *index, size_t index_bytes);

/*
 * One turn of a session of gdb with a station, by gdb's remote protocol. It is the
 * same loop, but for the bytes: what came from gdb and is not used yet is lent to
 * every turn, and the turn says how many of them it used.
 *
 *     event = STATION_EVENT_START;
 *     for (;;) {
 *         answer = station_gdb_turn(session, event, in, in_bytes, out, ..);
 *         write the first station_bytes(answer) bytes of out: the last
 *             session[STATION_GDB_WORD_SAID] of them to standard error, those
 *             before to standard output
 *         drop the first session[STATION_GDB_WORD_USED] bytes of in
 *         do what station_wants(answer) names; the outcome is the next event
 *     }
 *
 * Wants are STATION_WANTS_INPUT (more bytes behind those in `in`; events GO_ON,
 * INTERRUPT, END_OF_INPUT), _GO_ON (the same, without waiting for any), _SAVE
 * (SAVED, NOT_SAVED) and _END.
 *
 * session    STATION_GDB_WORDS words, all 0 before the first turn.
 * in         what gdb sent and no turn has used, at most STATION_GDB_IN_BYTES.
 * out        lent for writing: what is to be written.
 * packet,    lent for writing, and for no other use between the turns: a packet,
 * reply,     a reply, and what a piece of a run overwrites.
 * kept
 * image and so on as for station_panel_turn. There is a station.
 */
#define STATION_GDB_WORDS 256

/* How long the buffers should be. Shorter ones cut what is said, and no more, but
   for `kept`: with a shorter one a stop may lose or spoil steps on hand. */
#define STATION_GDB_IN_BYTES 65536
#define STATION_GDB_OUT_BYTES 131072
#define STATION_GDB_PACKET_BYTES 16384
#define STATION_GDB_REPLY_BYTES 65536
#define STATION_GDB_KEPT_BYTES 328448

enum {
    /* How many bytes of `in` the turn used. */
    STATION_GDB_WORD_USED = 0,
    /* How many of the last bytes of `out` go to standard error. */
    STATION_GDB_WORD_SAID = 1
};

uint64_t station_gdb_turn(uint64_t *session, uint64_t event,
                          const uint8_t *in, size_t in_bytes,
                          uint8_t *out, size_t out_bytes,
                          uint8_t *packet, size_t packet_bytes,
                          uint8_t *reply, size_t reply_bytes,
                          uint8_t *image, size_t image_bytes,
                          const uint8_t *execution, size_t execution_bytes,
                          const uint8_t *bootstrap, size_t bootstrap_bytes,
                          uint8_t *ram, size_t ram_bytes,
                          uint8_t *paper, size_t paper_bytes,
                          uint8_t *journal, size_t journal_bytes,
                          uint8_t *index, size_t index_bytes,
                          uint8_t *kept, size_t kept_bytes);

/*
 * The turn after STATION_WANTS_OTHER: shows in what two stations differ. Only the
 * session and out are written. Answers as station_panel_turn does. The index is
 * not lent: it follows from the others.
 *
 * image, ram, paper, journal    of this station.
 * other_image and so on         of the station to compare with.
 */
uint64_t station_compare_turn(
    uint64_t *session, uint8_t *out, size_t out_bytes,
    const uint8_t *image, size_t image_bytes,
    const uint8_t *ram, size_t ram_bytes,
    const uint8_t *paper, size_t paper_bytes,
    const uint8_t *journal, size_t journal_bytes,
    const uint8_t *other_image, size_t other_image_bytes,
    const uint8_t *other_ram, size_t other_ram_bytes,
    const uint8_t *other_paper, size_t other_paper_bytes,
    const uint8_t *other_journal, size_t other_journal_bytes);

#ifdef __cplusplus
}
#endif

#endif
