/* Output, whatever takes it, and its checksum (FNV-1a). */
#include "program.h"

void emit(byte value);

static word checksum = 0x811C9DC5u;

void put(word value)
{
    checksum = (checksum ^ (value & 0xFF)) * 0x01000193u;
    emit((byte)value);
}

void put_word(word value)
{
    int shift;
    for (shift = 0; shift < 32; shift += 8)
        put(value >> shift);
}

void put_text(const char *text)
{
    while (*text)
        put((byte)*text++);
}

void put_number(word value)
{
    if (value >= 10)
        put_number(value / 10);
    put('0' + value % 10);
}

void put_checksum(void)
{
    put_word(checksum);
}
