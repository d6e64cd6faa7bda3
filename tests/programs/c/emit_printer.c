/* Output through printer 0, by polling its STATUS. */
#include "program.h"

struct printer {
    word status, command, data0, data1;
};

#define PRINTER_0 ((volatile struct printer *)0x100001D0)

enum { BUSY = 3, ACK = 1, PRINTCHR = 2 };

void emit(byte value)
{
    PRINTER_0->data0 = value;
    PRINTER_0->command = PRINTCHR;
    while (PRINTER_0->status == BUSY) {
    }
    PRINTER_0->command = ACK;
}

void flush(void)
{
}
