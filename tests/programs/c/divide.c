/* Quotients and remainders of every mix of signs, and by constants. */
#include "program.h"

static const int edges[] = { 1, -1, 2, -2, 7, -7, 10, 32767, -32768, 65536, 2147483647, -2147483647 - 1 };

#define EDGES ((int)(sizeof edges / sizeof edges[0]))

static void both(int a, int b)
{
    put_word((word)a / (word)b);
    put_word((word)a % (word)b);
    /* The one signed division that C leaves open. */
    if (b == -1 && a == edges[EDGES - 1])
        return;
    put_word((word)(a / b));
    put_word((word)(a % b));
}

static word common(word a, word b)
{
    return b == 0 ? a : common(b, a % b);
}

word program(void)
{
    int row, column;
    for (row = 0; row < EDGES; row++)
        for (column = 0; column < EDGES; column++)
            both(edges[row], edges[column]);
    for (row = 0; row < 60; row++) {
        int a = (int)next_random(), b = (int)(next_random() >> row % 31);
        if (b != 0)
            both(a, b);
        put_word((word)(a / 10) + (word)(a % 10));
        put_word((word)a / 7 - (word)a % 1000);
        put_word(common((word)a, (word)b));
    }
    return 0;
}
