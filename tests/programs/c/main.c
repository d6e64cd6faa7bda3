/* Runs the program and puts a checksum of all that it put. */
#include "program.h"

void put_checksum(void);

int main(void)
{
    word code = program();
    put_checksum();
    flush();
    return (int)code;
}
