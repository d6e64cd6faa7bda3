/* Three ways to sort, one through a pointer to the comparison. */
#include "program.h"

#define COUNT 150

static int numbers[3][COUNT];

static void insertion(int *from, int count)
{
    int at, hole, value;
    for (at = 1; at < count; at++) {
        value = from[at];
        for (hole = at; hole > 0 && from[hole - 1] > value; hole--)
            from[hole] = from[hole - 1];
        from[hole] = value;
    }
}

static void quick(int *from, int low, int high)
{
    int left = low, right = high, middle = from[(low + high) / 2], kept;
    while (left <= right) {
        while (from[left] < middle)
            left++;
        while (from[right] > middle)
            right--;
        if (left <= right) {
            kept = from[left];
            from[left++] = from[right];
            from[right--] = kept;
        }
    }
    if (low < right)
        quick(from, low, right);
    if (left < high)
        quick(from, left, high);
}

static int unsigned_below(int a, int b)
{
    return (word)a < (word)b;
}

static void sift(int *from, int at, int count, int (*below)(int, int))
{
    int child, kept;
    while ((child = 2 * at + 1) < count) {
        if (child + 1 < count && below(from[child], from[child + 1]))
            child++;
        if (!below(from[at], from[child]))
            return;
        kept = from[at];
        from[at] = from[child];
        from[child] = kept;
        at = child;
    }
}

static void heap(int *from, int count, int (*below)(int, int))
{
    int at, kept;
    for (at = count / 2 - 1; at >= 0; at--)
        sift(from, at, count, below);
    for (at = count - 1; at > 0; at--) {
        kept = from[0];
        from[0] = from[at];
        from[at] = kept;
        sift(from, 0, at, below);
    }
}

word program(void)
{
    int at;
    for (at = 0; at < COUNT; at++)
        numbers[0][at] = numbers[1][at] = numbers[2][at] = (int)next_random();
    insertion(numbers[0], COUNT);
    quick(numbers[1], 0, COUNT - 1);
    heap(numbers[2], COUNT, unsigned_below);
    for (at = 0; at < COUNT; at++) {
        if (numbers[0][at] != numbers[1][at])
            return 1;
        put_word((word)numbers[0][at]);
        put_word((word)numbers[2][at]);
    }
    return 0;
}
