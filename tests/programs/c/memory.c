/* The compiler may call these although no program does. */
#include <stddef.h>

void *memset(void *to, int value, size_t count)
{
    unsigned char *at = to;
    while (count--)
        *at++ = (unsigned char)value;
    return to;
}

void *memcpy(void *to, const void *from, size_t count)
{
    unsigned char *at = to;
    const unsigned char *source = from;
    while (count--)
        *at++ = *source++;
    return to;
}
