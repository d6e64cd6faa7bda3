/* A machine for these tests and a session of gdb with it. Each buffer ends where
 * a page begins that may not be touched, and guard bytes stand before it. */
#ifndef GDB_MACHINE_H
#define GDB_MACHINE_H

#include <stdint.h>
#include <stdio.h>
#include <stdlib.h>
#include <string.h>
#include <sys/mman.h>

#include "../../include/station.h"

enum { PAGE = 4096, GUARD_BYTE = 0xA5, SLOT = 512 };

struct lent {
    uint8_t *whole, *bytes;
    size_t pages, len;
};

struct machine {
    uint64_t words[STATION_SESSION_WORDS];
    uint64_t session[STATION_GDB_WORDS];
    struct lent in, out, packet, reply, image, execution, bootstrap, ram, paper, journal, index, kept;
    size_t in_use; /* bytes of `in` */
};

static void fail(const char *what)
{
    fprintf(stderr, "tests/gdb: %s\n", what);
    exit(1);
}

static struct lent lend(size_t len)
{
    struct lent b;
    b.len = len;
    b.pages = (len + PAGE - 1) / PAGE + 2;
    b.whole = mmap(NULL, b.pages * PAGE, PROT_READ | PROT_WRITE, MAP_PRIVATE | MAP_ANONYMOUS, -1, 0);
    if (b.whole == MAP_FAILED)
        fail("no memory");
    b.bytes = b.whole + (b.pages - 1) * PAGE - len;
    memset(b.whole, GUARD_BYTE, (size_t)(b.bytes - b.whole));
    memset(b.bytes, 0, len);
    if (mprotect(b.whole + (b.pages - 1) * PAGE, PAGE, PROT_NONE) != 0)
        fail("no guard page");
    return b;
}

static void give_back(struct lent b)
{
    for (uint8_t *p = b.whole; p < b.bytes; p++)
        if (*p != GUARD_BYTE)
            fail("a byte before a buffer was written");
    munmap(b.whole, b.pages * PAGE);
}

static uint64_t seed = 1;

static uint64_t dice(uint64_t below)
{
    seed ^= seed << 13;
    seed ^= seed >> 7;
    seed ^= seed << 17;
    return seed % below;
}

static uint64_t panel(struct machine *m, uint64_t event)
{
    static const uint8_t none = 0;
    return station_panel_turn(m->words, event, &none, 0, m->out.bytes, m->out.len, m->image.bytes, m->image.len,
                              m->execution.bytes, m->execution.len, m->bootstrap.bytes, m->bootstrap.len, m->ram.bytes,
                              m->ram.len, m->paper.bytes, m->paper.len, m->journal.bytes, m->journal.len,
                              m->index.bytes, m->index.len);
}

static uint64_t turn(struct machine *m, uint64_t event)
{
    uint64_t answer = station_gdb_turn(
        m->session, event, m->in.bytes, m->in_use, m->out.bytes, m->out.len, m->packet.bytes, m->packet.len,
        m->reply.bytes, m->reply.len, m->image.bytes, m->image.len, m->execution.bytes, m->execution.len,
        m->bootstrap.bytes, m->bootstrap.len, m->ram.bytes, m->ram.len, m->paper.bytes, m->paper.len,
        m->journal.bytes, m->journal.len, m->index.bytes, m->index.len, m->kept.bytes, m->kept.len);
    uint64_t used = m->session[STATION_GDB_WORD_USED], said = m->session[STATION_GDB_WORD_SAID];
    if (used > m->in_use || station_bytes(answer) > m->out.len || said > station_bytes(answer))
        fail("a turn answers more bytes than there are");
    m->in_use -= used;
    memmove(m->in.bytes, m->in.bytes + used, m->in_use);
    return answer;
}

static void put_word(uint8_t *at, uint32_t word)
{
    for (int i = 0; i < 4; i++)
        at[i] = (uint8_t)(word >> 8 * i);
}

/* Word k of the image. */
static inline uint32_t word(const struct machine *m, int k)
{
    const uint8_t *b = m->image.bytes + 5 + 4 * k;
    return (uint32_t)b[0] << 24 | (uint32_t)b[1] << 16 | (uint32_t)b[2] << 8 | b[3];
}

enum { WORD_PC = 33, WORD_CLOCK = 76, WORD_ON_HAND = 122 };

enum { ADDIU = 9, BNE = 5, J = 2, LW = 35, SB = 40, SH = 41, SW = 43 };

/* Fields of an instruction. */
static uint32_t immediate(unsigned op, unsigned rs, unsigned rt, unsigned n)
{
    return (uint32_t)op << 26 | (uint32_t)rs << 21 | (uint32_t)rt << 16 | (n & 0xFFFF);
}

enum { BODY = 48, REGION = 64 };

/* One of a loop: sums, loads, branches over the next, and stores to the first
 * REGION bytes of RAM, often of a value that is there already. */
static uint32_t instruction(void)
{
    unsigned a = 8 + (unsigned)dice(4), b = (unsigned)(dice(3) == 0 ? 0 : 8 + dice(4));
    unsigned at = (unsigned)dice(REGION);
    switch (dice(9)) {
    case 0:
        return immediate(SW, 16, b, at & ~3u);
    case 1:
        return immediate(SH, 16, b, at & ~1u);
    case 2:
        return immediate(SB, 16, b, at);
    case 3:
        return immediate(LW, 16, a, at & ~3u);
    case 4:
        return immediate(BNE, a, b, 2);
    default:
        return immediate(ADDIU, a, a, (unsigned)dice(4));
    }
}

/* $16 is RAM; then the loop, without an end. */
static void write_program(struct machine *m)
{
    uint8_t *rom = m->bootstrap.bytes;
    put_word(rom, immediate(15, 0, 16, 0x2000));
    for (int i = 1; i < BODY; i++)
        put_word(rom + 4 * i, instruction());
    put_word(rom + 4 * BODY, (uint32_t)J << 26 | 0x1FC00004 / 4);
    put_word(rom + 4 * BODY + 4, 0);
}

static struct machine make_machine(size_t frames, size_t slots)
{
    struct machine m;
    memset(&m, 0, sizeof m);
    m.in = lend(STATION_GDB_IN_BYTES);
    m.out = lend(STATION_GDB_OUT_BYTES);
    m.packet = lend(STATION_GDB_PACKET_BYTES);
    m.reply = lend(STATION_GDB_REPLY_BYTES);
    m.image = lend(STATION_IMAGE_BYTES);
    m.execution = lend(4096);
    m.bootstrap = lend(4096);
    m.ram = lend(frames * 4096);
    m.paper = lend(80);
    m.journal = lend(slots * SLOT);
    m.index = lend(frames * 16);
    m.kept = lend(STATION_GDB_KEPT_BYTES);
    write_program(&m);
    m.words[11] = 3; /* the mode, and the three parameters: crates/session/src/words.rt */
    m.words[16] = 1;
    m.words[17] = 20;
    m.words[18] = 1;
    panel(&m, STATION_EVENT_MADE);
    return m;
}

static void leave(struct machine *m)
{
    struct lent all[] = {m->in, m->out, m->packet, m->reply, m->image, m->execution, m->bootstrap, m->ram, m->paper,
                         m->journal, m->index, m->kept};
    for (size_t i = 0; i < sizeof all / sizeof all[0]; i++)
        give_back(all[i]);
}

/* A packet behind what is in `in`. */
static void send(struct machine *m, const uint8_t *payload, size_t count)
{
    unsigned sum = 0;
    uint8_t *in = m->in.bytes;
    in[m->in_use++] = '$';
    for (size_t i = 0; i < count; i++) {
        in[m->in_use++] = payload[i];
        sum += payload[i];
    }
    m->in_use += (size_t)sprintf((char *)in + m->in_use, "#%02x", sum & 0xFF);
}

#endif
