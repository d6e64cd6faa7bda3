/* Hands its output over and then ends in a trap; ENDING says in which. */
#include "program.h"

static volatile int zero, most = 2147483647;

/* On both machines there is nothing here. */
#define NOWHERE 0x30000000

word program(void)
{
    put_text("before the end");
    flush();
#if ENDING == 1
    /* Division by 0: the compiler's own BREAK. */
    return (word)(most / zero);
#elif ENDING == 2
    __asm__ volatile("add $8, %0, %0" : : "r"(most) : "$8");
#elif ENDING == 3
    return *(volatile word *)NOWHERE;
#elif ENDING == 4
    ((void (*)(void))NOWHERE)();
#elif ENDING == 5
    __asm__ volatile("break");
#elif ENDING == 6
    /* SPECIAL 63: of no 32-bit MIPS. */
    __asm__ volatile(".word 0x0000003F");
#elif ENDING == 7
    /* Only for user mode: in kernel mode it is no trap. */
    __asm__ volatile("mfc0 $8, $12" : : : "$8");
#endif
    return (word)zero;
}
