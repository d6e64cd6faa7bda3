/* Numbers of 64 bits: sums, products, shifts, comparisons; no division. */
#include "program.h"

static void put_wide(wide value)
{
    put_word((word)value);
    put_word((word)(value >> 32));
}

/* Decimal by taking away powers of ten. */
static void put_decimal(wide value)
{
    wide powers[20];
    int at, started = 0;
    powers[0] = 1;
    for (at = 1; at < 20; at++)
        powers[at] = powers[at - 1] * 10;
    for (at = 19; at >= 0; at--) {
        word digit = 0;
        while (value >= powers[at]) {
            value -= powers[at];
            digit++;
        }
        started |= digit != 0 || at == 0;
        if (started)
            put('0' + digit);
    }
    put('\n');
}

static wide shuffled(wide state)
{
    state ^= state << 13;
    state ^= state >> 7;
    return state ^ state << 17;
}

word program(void)
{
    wide a = 0, b = 1, state = 0x123456789ABCDEFull, sum = 0;
    long long low = 0;
    int at;
    for (at = 0; at < 90; at++) {
        wide next = a + b;
        a = b;
        b = next;
    }
    put_decimal(a);
    put_decimal(~0ull);
    for (at = 0; at < 300; at++) {
        state = shuffled(state);
        sum += state * (word)at;
        sum ^= (wide)(word)state * (word)(state >> 32);
        if ((long long)state < low)
            low = (long long)state;
        if (at % 10 == 0)
            put_wide(sum - (wide)((long long)state >> 3));
    }
    put_wide((wide)low);
    put_wide((wide)-(long long)sum);
    return sum > state;
}
