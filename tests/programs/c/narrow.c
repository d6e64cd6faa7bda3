/* Bytes and halves with and without a sign, and words at any place. */
#include "program.h"

struct packed {
    byte first;
    word number;
    half two;
    int signed_number;
    byte last;
} __attribute__((packed));

static byte memory[512] __attribute__((aligned(4)));
static struct packed rows[24];

union parts {
    word whole;
    signed char bytes[4];
    short halves[2];
};

static void fill(void)
{
    word at;
    for (at = 0; at < sizeof memory; at++)
        memory[at] = (byte)next_random();
}

/* Volatile, so that every access is made. */
static word sums(void)
{
    volatile signed char *signed_bytes = (volatile signed char *)memory;
    volatile byte *bytes = memory;
    volatile short *signed_halves = (volatile short *)memory;
    volatile half *halves = (volatile half *)memory;
    word sum = 0, at;
    for (at = 0; at < sizeof memory; at++)
        sum = sum * 31 + (word)signed_bytes[at] + 7 * bytes[at];
    for (at = 0; at < sizeof memory / 2; at++) {
        sum = sum * 31 + (word)signed_halves[at] - 3 * halves[at];
        signed_halves[at] = (short)(sum >> 5);
        bytes[at] = (byte)(sum >> 9);
    }
    return sum;
}

/* Without the masks that the compiler puts behind a volatile load. */
static word plain_sums(const half *halves, const signed char *bytes)
{
    word sum = 0, at;
    for (at = 0; at < sizeof memory / 2; at++)
        sum += halves[at] * 5u ^ (word)bytes[at];
    return sum;
}

static word unaligned(void)
{
    word at, sum = 0;
    for (at = 0; at < 24; at++) {
        volatile struct packed *row = &rows[at];
        row->first = (byte)at;
        row->number = next_random();
        row->two = (half)next_random();
        row->signed_number = -(int)(next_random() >> at);
        row->last = 0xEE;
    }
    for (at = 0; at < 24; at++) {
        volatile struct packed *row = &rows[23 - at];
        row->number += (word)row->signed_number;
        row->signed_number ^= (int)row->two;
        sum = sum * 17 + row->number + row->first + row->last;
    }
    return sum;
}

word program(void)
{
    union parts parts;
    word at;
    fill();
    put_word(sums());
    put_word(plain_sums((const half *)memory, (const signed char *)memory));
    put_word(unaligned());
    for (at = 0; at < sizeof memory; at++)
        put(memory[at]);
    for (at = 0; at < sizeof rows; at++)
        put(((byte *)rows)[at]);
    for (at = 0; at < 30; at++) {
        parts.whole = next_random();
        parts.halves[at & 1] = parts.bytes[at & 3];
        parts.bytes[(at + 1) & 3] = (signed char)(parts.halves[0] >> 4);
        put_word(parts.whole + (word)parts.bytes[2]);
    }
    return 0;
}
