/* CRC-32 bit by bit and by a table. */
#include "program.h"

static word table[256];

static word by_bits(word crc, byte value)
{
    int bit;
    crc ^= value;
    for (bit = 0; bit < 8; bit++)
        crc = crc >> 1 ^ (crc & 1 ? 0xEDB88320u : 0);
    return crc;
}

static word by_table(word crc, byte value)
{
    return table[(crc ^ value) & 0xFF] ^ crc >> 8;
}

word program(void)
{
    static const char digits[] = "123456789";
    word bits = ~0u, quick = ~0u;
    int at;
    for (at = 0; at < 256; at++)
        table[at] = by_bits((word)at, 0);
    for (at = 0; at < 9; at++)
        quick = by_table(quick, (byte)digits[at]);
    put_word(~quick);
    if (~quick != 0xCBF43926u)
        return 1;
    for (at = 0; at < 1500; at++) {
        byte value = (byte)next_random();
        bits = by_bits(bits, value);
        quick = at == 0 ? by_table(~0u, value) : by_table(quick, value);
        if (at % 100 == 99)
            put_word(quick);
    }
    return bits == quick ? 0 : 2;
}
