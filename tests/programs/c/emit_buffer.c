/* Output into a buffer, which one call of the system hands over. */
#include "program.h"

#define ROOM 8000

void write_out(const byte *from, word count);

static byte buffer[ROOM];
static word used;

void emit(byte value)
{
    if (used < ROOM)
        buffer[used++] = value;
}

void flush(void)
{
    write_out(buffer, used);
}
