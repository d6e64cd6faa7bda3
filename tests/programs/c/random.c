#include "program.h"

static word state = 12345;

/* The low bits of such a generator are poor. */
word next_random(void)
{
    state = state * 1664525u + 1013904223u;
    return state >> 8 ^ state << 13;
}
