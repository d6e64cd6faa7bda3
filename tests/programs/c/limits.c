/* Constants at the edges of 16 bits, and shifts by any amount. */
#include "program.h"

static const word edges[] = { 0,          1,          0x7FFF,     0x8000,     0x8001,
                              0xFFFE,     0xFFFF,     0x10000,    0x7FFFFFFF, 0x80000000,
                              0xFFFF7FFF, 0xFFFF8000, 0xFFFFFFF0, 0xFFFFFFFE, 0xFFFFFFFF };

#define EDGES (sizeof edges / sizeof edges[0])

static void compare(word value)
{
    int number = (int)value;
    put((word)(value < 0x7FFF) | (word)(value < 0x8000) << 1 | (word)(value < 0xFFFF8000) << 2
        | (word)(value < 0xFFFFFFFF) << 3);
    put((word)(number < 0x7FFF) | (word)(number < -0x8000) << 1 | (word)(number < -1) << 2
        | (word)(number < 0x8000) << 3 | (word)(number > 0) << 4 | (word)(number <= 0) << 5);
    put((word)(value > 0xFFFFFFEF) | (word)(number > -0x8001) << 1 | (word)(number >= -5) << 2);
}

static void combine(word value)
{
    put_word(value | 0x8001);
    put_word(value & 0x8001);
    put_word(value ^ 0xFFFF);
    put_word(value + 0x7FFF);
    put_word(value - 0x8000);
    put_word(value + 0x12348000);
}

static void shift(word value, word by)
{
    put_word(value << by);
    put_word(value >> by);
    put_word((word)((int)value >> by));
}

word program(void)
{
    word at;
    for (at = 0; at < EDGES; at++) {
        compare(edges[at]);
        combine(edges[at]);
        shift(edges[at], at * 7 % 32);
        shift(edges[at], 31 - at);
    }
    return 0;
}
