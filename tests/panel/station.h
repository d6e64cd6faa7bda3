/* A station for the tests: its buffers between guard bytes, and what its machine runs. */
#ifndef PANEL_STATION_H
#define PANEL_STATION_H

#include <stdint.h>
#include <stdio.h>
#include <stdlib.h>
#include <string.h>

#include "../../include/station.h"

enum { GUARD = 64, GUARD_BYTE = 0xA5 };

/* `bytes` of `len` lie between two runs of guard bytes. */
struct lent {
    uint8_t *whole;
    uint8_t *bytes;
    size_t len;
};

static struct lent lend(size_t len)
{
    struct lent b;
    b.whole = malloc(len + 2 * GUARD);
    if (b.whole == NULL) {
        fprintf(stderr, "no memory\n");
        exit(2);
    }
    memset(b.whole, GUARD_BYTE, len + 2 * GUARD);
    b.bytes = b.whole + GUARD;
    b.len = len;
    memset(b.bytes, 0, len);
    return b;
}

static void give_back(struct lent b)
{
    free(b.whole);
}

static int guarded(struct lent b)
{
    size_t i;
    for (i = 0; i < GUARD; i++) {
        if (b.whole[i] != GUARD_BYTE || b.bytes[b.len + i] != GUARD_BYTE)
            return 0;
    }
    return 1;
}

struct station {
    uint64_t session[STATION_SESSION_WORDS];
    struct lent out, image, execution, bootstrap, ram, paper, journal, index;
};

static uint64_t turn(struct station *s, uint64_t event, const uint8_t *in, size_t in_bytes)
{
    return station_panel_turn(s->session, event, in, in_bytes, s->out.bytes, s->out.len,
                              s->image.bytes, s->image.len, s->execution.bytes,
                              s->execution.len, s->bootstrap.bytes, s->bootstrap.len,
                              s->ram.bytes, s->ram.len, s->paper.bytes, s->paper.len,
                              s->journal.bytes, s->journal.len, s->index.bytes,
                              s->index.len);
}

/* With `other` for both sides where they are the same station. */
static uint64_t compare(struct station *s, struct station *other)
{
    return station_compare_turn(
        s->session, s->out.bytes, s->out.len, s->image.bytes, s->image.len, s->ram.bytes,
        s->ram.len, s->paper.bytes, s->paper.len, s->journal.bytes, s->journal.len,
        other->image.bytes, other->image.len, other->ram.bytes, other->ram.len,
        other->paper.bytes, other->paper.len, other->journal.bytes, other->journal.len);
}

static struct station no_station(void)
{
    struct station s;
    memset(s.session, 0, sizeof s.session);
    s.out = lend(STATION_OUT_BYTES);
    s.image = lend(STATION_IMAGE_BYTES);
    s.execution = lend(0);
    s.bootstrap = lend(0);
    s.ram = lend(0);
    s.paper = lend(0);
    s.journal = lend(0);
    s.index = lend(0);
    return s;
}

static int all_guarded(const struct station *s)
{
    return guarded(s->out) && guarded(s->image) && guarded(s->execution) &&
           guarded(s->bootstrap) && guarded(s->ram) && guarded(s->paper) &&
           guarded(s->journal) && guarded(s->index);
}

static void leave(struct station s)
{
    give_back(s.out);
    give_back(s.image);
    give_back(s.execution);
    give_back(s.bootstrap);
    give_back(s.ram);
    give_back(s.paper);
    give_back(s.journal);
    give_back(s.index);
}

/* What the machine runs after a reset: it stores 25 in 0x20000100 and then 1,
   prints A, and asks the kernel, which goes round at 0x1fc00180. */
static struct lent code(const uint32_t *words, size_t count, size_t len)
{
    struct lent b = lend(len);
    size_t i;
    for (i = 0; i < count; i++) {
        b.bytes[4 * i] = (uint8_t)words[i];
        b.bytes[4 * i + 1] = (uint8_t)(words[i] >> 8);
        b.bytes[4 * i + 2] = (uint8_t)(words[i] >> 16);
        b.bytes[4 * i + 3] = (uint8_t)(words[i] >> 24);
    }
    return b;
}

static struct lent boot_rom(void)
{
    static const uint32_t words[] = {
        0x3C082000, /* lui   t0, 0x2000 */
        0x24090019, /* addiu t1, zero, 25 */
        0xAD090100, /* sw    t1, 0x100(t0) */
        0x24090001, /* addiu t1, zero, 1 */
        0xAD090100, /* sw    t1, 0x100(t0) */
        0x3C0A1000, /* lui   t2, 0x1000 */
        0x354A01D0, /* ori   t2, t2, 0x1d0: printer 0 */
        0x240B0041, /* addiu t3, zero, 'A' */
        0xAD4B0008, /* sw    t3, 8(t2): DATA0 */
        0x240C0002, /* addiu t4, zero, 2 */
        0xAD4C0004, /* sw    t4, 4(t2): COMMAND, PRINTCHR */
        0x0000000C, /* syscall */
    };
    struct lent b = code(words, sizeof words / sizeof words[0], 0x188);
    memcpy(b.bytes + 0x180, "\x60\x00\xf0\x0b", 4); /* j 0x1fc00180 */
    return b;
}

#endif
