/* input.c - see input.h. */
#include "input.h"

#include "say.h"
#include "signals.h"
#include "station.h"

#include <errno.h>
#include <string.h>
#include <unistd.h>

static uint8_t line[STATION_LINE_BYTES];
static size_t length;
static int too_long;
static int from_words, stopped, failed;

static void add(const uint8_t *bytes, size_t count)
{
    if (count > sizeof line - length) {
        too_long = 1;
        return;
    }
    memcpy(line + length, bytes, count);
    length += count;
}

static uint64_t whole_line(void)
{
    return too_long ? STATION_EVENT_TOO_LONG : STATION_EVENT_LINE;
}

void input_from_words(char *const *words, int count)
{
    from_words = 1;
    for (int i = 0; i < count; i++) {
        if (i > 0)
            add((const uint8_t *)" ", 1);
        add((const uint8_t *)words[i], strlen(words[i]));
    }
}

void input_stop(void)
{
    stopped = 1;
}

/* Standard input, read ahead. */
static uint8_t ahead[4096];
static size_t at, end;

/* 1: there are bytes ahead. 0: a signal came. -1: no more input. */
static int fill(void)
{
    while (at == end) {
        ssize_t n;
        if (!signals_wait_input())
            return 0;
        n = read(STDIN_FILENO, ahead, sizeof ahead);
        if (n == 0)
            return -1;
        if (n > 0) {
            at = 0;
            end = (size_t)n;
        } else if (errno != EINTR && errno != EAGAIN) {
            say("standard input", "cannot be read", errno, "the session ends and saves");
            failed = stopped = 1;
            return -1;
        }
    }
    return 1;
}

static uint64_t read_line(void)
{
    size_t began = 0;
    length = 0;
    too_long = 0;
    for (;;) {
        const uint8_t *feed;
        int r = fill();
        if (r == 0)
            return signals_interrupted() ? STATION_EVENT_INTERRUPT : STATION_EVENT_END_OF_INPUT;
        if (r < 0)
            return began ? whole_line() : STATION_EVENT_END_OF_INPUT;
        began = 1;
        feed = memchr(ahead + at, '\n', end - at);
        add(ahead + at, feed != NULL ? (size_t)(feed - (ahead + at)) : end - at);
        at = feed != NULL ? (size_t)(feed - ahead) + 1 : end;
        if (feed != NULL)
            return whole_line();
    }
}

uint64_t input_next(void)
{
    if (stopped || signals_ended())
        return STATION_EVENT_END_OF_INPUT;
    if (!from_words)
        return read_line();
    stopped = 1;
    return whole_line();
}

const uint8_t *input_line(size_t *bytes)
{
    *bytes = length;
    return line;
}

int input_failed(void)
{
    return failed;
}
