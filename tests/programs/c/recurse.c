/* Deep and mutual recursion, and a table of jumps. */
#include "program.h"

static word ackermann(word m, word n)
{
    if (m == 0)
        return n + 1;
    return n == 0 ? ackermann(m - 1, 1) : ackermann(m - 1, ackermann(m, n - 1));
}

static int odd(word n);

static int even(word n)
{
    return n == 0 ? 1 : odd(n - 1);
}

static int odd(word n)
{
    return n == 0 ? 0 : even(n - 1);
}

static int rows[8];

static int safe(int row, int column)
{
    int above;
    for (above = 0; above < row; above++) {
        int apart = rows[above] - column;
        if (apart == 0 || apart == row - above || apart == above - row)
            return 0;
    }
    return 1;
}

static word queens(int row, int size)
{
    word found = 0;
    int column;
    if (row == size) {
        for (column = 0; column < size; column++)
            put('1' + (word)rows[column]);
        put('\n');
        return 1;
    }
    for (column = 0; column < size; column++)
        if (safe(row, column)) {
            rows[row] = column;
            found += queens(row + 1, size);
        }
    return found;
}

/* A machine of eight orders on a small stack, driven by a switch. */
static int stack_machine(const byte *order)
{
    int stack[16], top = 0;
    for (;; order++)
        switch (*order) {
        case 0: return stack[top - 1];
        case 1: stack[top++] = *++order; break;
        case 2: top--; stack[top - 1] += stack[top]; break;
        case 3: top--; stack[top - 1] -= stack[top]; break;
        case 4: top--; stack[top - 1] *= stack[top]; break;
        case 5: stack[top] = stack[top - 1]; top++; break;
        case 6: stack[top - 1] = -stack[top - 1]; break;
        case 7: stack[top - 1] >>= 1; break;
        default: return -1;
        }
}

word program(void)
{
    static const byte orders[] = { 1, 7, 5, 4, 1, 200, 3, 6, 5, 2, 7, 6, 1, 3, 4, 0 };
    put_number(ackermann(2, 9));
    put(even(101) ? 'e' : 'o');
    put('\n');
    put_word((word)stack_machine(orders));
    return queens(0, 6) + (queens(0, 7) == 40 ? 0 : 32);
}
