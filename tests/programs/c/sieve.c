/* Primes by a sieve, some of them by division as well. */
#include "program.h"

#define LIMIT 6000

static byte composite[LIMIT];

static int divides_none(word number)
{
    word by;
    for (by = 2; by * by <= number; by++)
        if (number % by == 0)
            return 0;
    return 1;
}

word program(void)
{
    word number, multiple, last = 2, count = 0;
    for (number = 2; number < LIMIT; number++) {
        if (composite[number])
            continue;
        for (multiple = number * number; multiple < LIMIT; multiple += number)
            composite[multiple] = 1;
        put(number - last);
        last = number;
        count++;
    }
    for (number = 2; number < 500; number++)
        if (composite[number] == divides_none(number))
            return 1;
    put_number(count);
    return count == 783 ? 0 : 2;
}
