/*
 * Reads files of coordinates with a units word, and gives micrometres. Without
 * the word a file is refused: a guess is how an inch file was once read as
 * millimetres.
 */
#include "program.h"

static const char in_inches[] =
    "0\nSECTION\n9\n$INSUNITS\n70\n1\n0\nENDSEC\n"
    "10\n0.5\n20\n-1.25\n30\n0\n"
    "10\n.0625\n20\n+2.00004\n30\n-0.1\n"
    "0\nEOF\n";

static const char in_millimetres[] =
    "0\nSECTION\n9\n$INSUNITS\n70\n4\n0\nENDSEC\n"
    "10\n12.7\n20\n-31.75\n30\n0\n"
    "10\n1.5875\n20\n50.801\n30\n-2.54\n"
    "0\nEOF\n";

static const char without_units[] = "0\nSECTION\n0\nENDSEC\n10\n12.7\n20\n1\n30\n0\n0\nEOF\n";
static const char with_a_letter[] = "9\n$INSUNITS\n70\n4\n10\n12,7\n20\n1\n30\n0\n0\nEOF\n";
static const char cut_short[] = "9\n$INSUNITS\n70\n4\n10\n12.7\n20\n";

enum { DONE, NO_UNITS, BAD_NUMBER, NO_END };

struct line {
    const char *from;
    word length;
};

struct units {
    word code;
    word micrometres;
    const char *name;
};

static const struct units known[] = {
    { 1, 25400, "inches" }, { 4, 1000, "millimetres" }, { 5, 10000, "centimetres" }
};

static int next_line(const char **rest, struct line *line)
{
    const char *at = *rest;
    if (!*at)
        return 0;
    line->from = at;
    while (*at && *at != '\n')
        at++;
    line->length = (word)(at - line->from);
    *rest = *at ? at + 1 : at;
    return 1;
}

static int is(const struct line *line, const char *text)
{
    word at;
    for (at = 0; at < line->length; at++)
        if (line->from[at] != text[at])
            return 0;
    return !text[at];
}

/* Millionths, or no number. */
static int millionths(const struct line *line, int *value)
{
    word at = 0, behind = 0, point = 0;
    int sign = 1, sum = 0;
    if (at < line->length && (line->from[at] == '-' || line->from[at] == '+'))
        sign = line->from[at++] == '-' ? -1 : 1;
    if (at == line->length)
        return 0;
    for (; at < line->length; at++) {
        char letter = line->from[at];
        if (letter == '.' && !point) {
            point = 1;
        } else if (letter >= '0' && letter <= '9' && behind < 6) {
            sum = sum * 10 + (letter - '0');
            behind += point;
        } else {
            return 0;
        }
    }
    for (; behind < 6; behind++)
        sum *= 10;
    *value = sign * sum;
    return 1;
}

/* Value times by over a million, rounded, without a 64-bit division. */
static int scaled(int value, word by)
{
    word size = value < 0 ? -(word)value : (word)value;
    word whole = size / 1000000 * by;
    word high = size % 1000000 / 1000 * by;
    word low = size % 1000 * by;
    word result = whole + high / 1000 + (high % 1000 * 1000 + low + 500000) / 1000000;
    return value < 0 ? -(int)result : (int)result;
}

static void put_signed(int value)
{
    if (value < 0)
        put('-');
    put_number(value < 0 ? -(word)value : (word)value);
}

static int import(const char *file)
{
    const struct units *units = 0;
    struct line code, value;
    word at, units_next = 0;
    int number;
    while (next_line(&file, &code)) {
        if (!next_line(&file, &value))
            return NO_END;
        if (is(&code, "0") && is(&value, "EOF"))
            return DONE;
        if (is(&code, "9"))
            units_next = is(&value, "$INSUNITS");
        if (is(&code, "70") && units_next)
            for (at = 0; at < sizeof known / sizeof known[0]; at++)
                if (value.length == 1 && (word)(value.from[0] - '0') == known[at].code) {
                    units = &known[at];
                    put_text(units->name);
                    put('\n');
                }
        if (is(&code, "10") || is(&code, "20") || is(&code, "30")) {
            if (!units)
                return NO_UNITS;
            if (!millionths(&value, &number))
                return BAD_NUMBER;
            put_signed(scaled(number, units->micrometres));
            put(code.from[0] == '3' ? '\n' : ' ');
        }
    }
    return NO_END;
}

word program(void)
{
    static const char *const files[] = { in_inches, in_millimetres, without_units, with_a_letter, cut_short };
    word at, ends = 0;
    for (at = 0; at < 5; at++) {
        word end = (word)import(files[at]);
        put_text("end ");
        put_number(end);
        put('\n');
        ends = ends * 3 + end;
    }
    return ends & 63;
}
