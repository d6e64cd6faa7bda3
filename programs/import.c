/*
 * The import program: reads a job in plain text and prints what will be milled.
 *
 *     order NUMBER
 *     units millimetre | inch
 *     customer NAME
 *     crown TOOTH WIDTH HEIGHT
 *
 * Lines may come in any order; all others are passed over. A size has up to
 * four digits behind its point.
 */
#include <stddef.h>
#include "calls.h"

typedef unsigned int word;

void print(int letter);

#define NAME_LETTERS 24
#define MOST_CROWNS 16

enum units { MILLIMETRE, INCH };

struct crown {
    word tooth, width, height;          /* sizes in ten-thousandths of the unit */
};

struct job {
    word order;
    char customer[NAME_LETTERS];
    enum units units;
    word crowns;
    struct crown crown[MOST_CROWNS];
};

static struct job job;

/* The demonstration looks for the units word here. */
_Static_assert(offsetof(struct job, units) == 0x1C, "the units word has moved");

static void print_text(const char *text)
{
    while (*text)
        print(*text++);
}

/* A number, with spaces before it up to the width. */
static void print_number(word number, int width)
{
    char digits[10];
    int count = 0;
    do {
        digits[count++] = '0' + number % 10;
        number /= 10;
    } while (number);
    for (; width > count; width--)
        print(' ');
    while (count)
        print(digits[--count]);
}

/* What stands behind the word and its space; 0 where the line begins otherwise. */
static const char *behind(const char *line, const char *word)
{
    while (*word)
        if (*line++ != *word++)
            return 0;
    return *line == ' ' ? line + 1 : 0;
}

static int is_digit(char letter)
{
    return letter >= '0' && letter <= '9';
}

static word read_number(const char **text)
{
    word number = 0;
    while (is_digit(**text))
        number = number * 10 + (*(*text)++ - '0');
    return number;
}

/* In ten-thousandths. */
static word read_size(const char **text)
{
    word size = read_number(text);
    int places;
    if (**text == '.')
        (*text)++;
    for (places = 0; places < 4; places++) {
        size *= 10;
        if (is_digit(**text))
            size += *(*text)++ - '0';
    }
    return size;
}

static void read_units(const char *text)
{
    job.units = *text == 'i' ? INCH : MILLIMETRE;
}

/* A name that is too long is cut. */
static void copy_name(char *name, const char *text)
{
    int i;
    for (i = 0; i < NAME_LETTERS && text[i] != '\n'; i++)
        name[i] = text[i];
    name[i] = 0;
}

static void read_crown(const char *text)
{
    struct crown *crown;
    if (job.crowns == MOST_CROWNS)
        return;
    crown = &job.crown[job.crowns++];
    crown->tooth = read_number(&text);
    text++;
    crown->width = read_size(&text);
    text++;
    crown->height = read_size(&text);
}

static void read_line(const char *line)
{
    const char *text;
    if ((text = behind(line, "order")))
        job.order = read_number(&text);
    else if ((text = behind(line, "units")))
        read_units(text);
    else if ((text = behind(line, "customer")))
        copy_name(job.customer, text);
    else if ((text = behind(line, "crown")))
        read_crown(text);
}

/* A ten-thousandth of an inch is 2.54 micrometres, of a millimetre 0.1. */
static word micrometres(word size)
{
    return job.units == INCH ? (size * 254 + 50) / 100 : (size + 5) / 10;
}

static void print_job(void)
{
    word i;
    print_text("Order ");
    print_number(job.order, 0);
    print_text(", ");
    print_text(job.customer);
    print_text(job.units == INCH ? ", inch\n" : ", millimetre\n");
    for (i = 0; i < job.crowns; i++) {
        print_text("mill crown");
        print_number(i + 1, 3);
        print_text(", tooth ");
        print_number(job.crown[i].tooth, 0);
        print(':');
        print_number(micrometres(job.crown[i].width), 6);
        print_text(" x");
        print_number(micrometres(job.crown[i].height), 6);
        print_text(" um\n");
    }
}

int main(void)
{
    const char *line = (const char *)JOB;
    job.order = job.units = job.crowns = job.customer[0] = 0;
    while (*line) {
        read_line(line);
        while (*line && *line != '\n')
            line++;
        if (*line)
            line++;
    }
    print_job();
    return 0;
}
