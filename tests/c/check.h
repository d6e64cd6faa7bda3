/* Counts what is checked, for the tests from C. */
#ifndef CHECK_H
#define CHECK_H

#include <stdio.h>

static unsigned checks;
static unsigned failures;

static void check(int right, const char *what)
{
    checks++;
    if (!right) {
        failures++;
        printf("c: failed: %s\n", what);
    }
}

/* Says how the checks of a call ended; the program's exit status. */
static int checked(const char *of)
{
    if (failures != 0) {
        printf("c: %u of %u checks of %s failed\n", failures, checks, of);
        return 1;
    }
    printf("c: %u checks of %s passed\n", checks, of);
    return 0;
}

#endif
