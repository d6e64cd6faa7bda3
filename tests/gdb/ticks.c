/* A program in kernel mode with a timer interrupt: `ticks` is written by the
 * handler in the execution ROM, `total` and `units` by the program. */

volatile unsigned ticks __attribute__((section(".ticks"))); /* at 0x20002000 */
unsigned total, units = 1;
unsigned char small[4];

static void add(unsigned n)
{
    total += n;
}

static void set_units(unsigned v)
{
    units = v;
}

static unsigned fall(unsigned n)
{
    if (n == 0)
        return 0;
    return 1 + fall(n - 1);
}

void forever(void)
{
    for (;;)
        ;
}

int main(void)
{
    unsigned i;
    for (i = 0; i < 100; i++)
        add(i);
    set_units(25);
    small[2] = 7;
    total += fall(5);
    set_units(25);
    set_units(254);
    while (ticks < 4)
        ;
    forever();
    return 0;
}
