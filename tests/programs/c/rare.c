/* Instructions that the compiler does not use. */
#include "program.h"

/* Arguments are small enough not to overflow. */
static word sums(int a, int b)
{
    int sum, difference;
    __asm__("addi %0, %2, -1234\n\t"
            "sub %1, %0, %3"
            : "=&r"(sum), "=r"(difference) : "r"(a), "r"(b));
    return (word)sum ^ (word)difference << 7;
}

static word moved(word a, word b)
{
    word high, low;
    __asm__("mthi %2\n\t"
            "mtlo %3\n\t"
            "nop\n\t"
            "mfhi %0\n\t"
            "mflo %1"
            : "=&r"(high), "=&r"(low) : "r"(a), "r"(b) : "hi", "lo");
    return high * 3 + low;
}

/* Calls where the value is negative, or where it is not; the slot runs and the
   link is written always. */
#define CALLING(branch) \
    ".set push\n\t" \
    ".set noreorder\n\t" \
    "move $31, $0\n\t" \
    branch " %1, 1f\n\t" \
    "addiu %0, %0, 1\n\t" \
    "b 2f\n\t" \
    "addiu %0, %0, 2\n" \
    "1:\taddu %0, %0, %1\n\t" \
    "jr $31\n\t" \
    "addiu %0, %0, 4\n" \
    "2:\tsltu $31, $0, $31\n\t" \
    "addu %0, %0, $31\n\t" \
    ".set pop"

static word calls(int value)
{
    word result = 0;
    __asm__ volatile(CALLING("bltzal") : "+&r"(result) : "r"(value) : "$31");
    __asm__ volatile(CALLING("bgezal") : "+&r"(result) : "r"(value) : "$31");
    return result;
}

word program(void)
{
    word at;
    for (at = 0; at < 50; at++) {
        word a = next_random(), b = next_random();
        put_word(sums((int)a >> 3, (int)b >> 3));
        put_word(moved(a, b));
        put_word(calls((int)a));
    }
    put_word(calls(0));
    return 0;
}
