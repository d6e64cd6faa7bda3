/* Products of matrices: whole numbers, and fixed point by the high word. */
#include "program.h"

#define SIZE 10

static int a[SIZE][SIZE], b[SIZE][SIZE], c[SIZE][SIZE];

/* 16 bits behind the point, so the product is the middle of 64 bits. */
static int fixed(int x, int y)
{
    return (int)((long long)x * y >> 16);
}

static int whole(int x, int y)
{
    return (int)((word)x * (word)y);
}

static void multiply(int (*product)(int, int))
{
    int row, column, at;
    for (row = 0; row < SIZE; row++)
        for (column = 0; column < SIZE; column++) {
            word sum = 0;
            for (at = 0; at < SIZE; at++)
                sum += (word)product(a[row][at], b[at][column]);
            c[row][column] = (int)sum;
        }
}

static void put_matrix(void)
{
    int row, column;
    for (row = 0; row < SIZE; row++)
        for (column = 0; column < SIZE; column++)
            put_word((word)c[row][column]);
}

word program(void)
{
    int row, column;
    for (row = 0; row < SIZE; row++)
        for (column = 0; column < SIZE; column++) {
            a[row][column] = (int)next_random();
            b[row][column] = (int)next_random() >> row;
        }
    multiply(whole);
    put_matrix();
    multiply(fixed);
    put_matrix();
    for (row = 0; row < SIZE; row++)
        for (column = 0; column < SIZE; column++)
            put_word((word)((wide)(word)a[row][column] * (word)b[row][column] >> 32));
    return 0;
}
