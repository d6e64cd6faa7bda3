/* Numbers and strings as text, with a list of arguments of any length. */
#include "program.h"
#include <stdarg.h>

static word length_of(const char *text)
{
    const char *end = text;
    while (*end)
        end++;
    return (word)(end - text);
}

static int compared(const char *a, const char *b)
{
    while (*a && *a == *b) {
        a++;
        b++;
    }
    return (signed char)*a - (signed char)*b;
}

static void put_digits(word value, word base, int width, char pad)
{
    char digits[36];
    int count = 0;
    do {
        digits[count++] = "0123456789abcdefghijklmnopqrstuvwxyz"[value % base];
        value /= base;
    } while (value);
    for (; width > count; width--)
        put((byte)pad);
    while (count)
        put((byte)digits[--count]);
}

static void put_signed(int value, int width)
{
    if (value < 0) {
        put('-');
        put_digits(-(word)value, 10, width - 1, '0');
    } else {
        put_digits((word)value, 10, width, ' ');
    }
}

static void say(const char *form, ...)
{
    va_list arguments;
    const char *text;
    int width;
    va_start(arguments, form);
    for (; *form; form++) {
        if (*form != '%') {
            put((byte)*form);
            continue;
        }
        width = 0;
        while (*++form >= '0' && *form <= '9')
            width = width * 10 + (*form - '0');
        switch (*form) {
        case 'd':
            put_signed(va_arg(arguments, int), width);
            break;
        case 'u':
            put_digits(va_arg(arguments, word), 10, width, ' ');
            break;
        case 'x':
            put_digits(va_arg(arguments, word), 16, width, '0');
            break;
        case 'b':
            put_digits(va_arg(arguments, word), 2, width, '0');
            break;
        case 'c':
            put((byte)va_arg(arguments, int));
            break;
        case 's':
            text = va_arg(arguments, const char *);
            put_text(text);
            for (width -= (int)length_of(text); width > 0; width--)
                put(' ');
            break;
        default:
            put('%');
        }
    }
    va_end(arguments);
}

word program(void)
{
    static const char *const words[] = { "mill", "crown", "inch", "millimetre", "inches", "" };
    word at, other;
    say("%d|%8d|%08x|%b|%c|%s|%%\n", -1, -2147483647 - 1, 0xBEEF, 37, 'q', "end");
    for (at = 0; at < 40; at++) {
        word value = next_random() >> at % 32;
        say("%5u %11d %8x %32b\n", value % 1000, (int)value, value, value);
    }
    for (at = 0; at < 6; at++)
        for (other = 0; other < 6; other++)
            say("%12s%12s%4d\n", words[at], words[other], compared(words[at], words[other]));
    return 0;
}
