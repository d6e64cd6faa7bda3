/* gdb_input.c - see gdb_input.h. */
#include "gdb_input.h"

#include "say.h"
#include "signals.h"
#include "station.h"

#include <errno.h>
#include <poll.h>
#include <string.h>
#include <unistd.h>

static uint8_t bytes[STATION_GDB_IN_BYTES];
static size_t length;

const uint8_t *gdb_input_bytes(size_t *count)
{
    *count = length;
    return bytes;
}

void gdb_input_use(uint64_t count)
{
    size_t used = count < length ? (size_t)count : length;
    length -= used;
    memmove(bytes, bytes + used, length);
}

/* What else goes wrong here, the read then says. */
static int is_ready(void)
{
    struct pollfd in = {STDIN_FILENO, POLLIN, 0};
    return poll(&in, 1, 0) != 0;
}

int gdb_input_more(int wait)
{
    ssize_t n;
    if (length == sizeof bytes || (wait ? !signals_wait_input() : !is_ready()))
        return 1;
    n = read(STDIN_FILENO, bytes + length, sizeof bytes - length);
    if (n > 0)
        length += (size_t)n;
    if (n == 0)
        return !wait && length != 0;
    if (n > 0 || errno == EINTR || errno == EAGAIN)
        return 1;
    say("standard input", "cannot be read", errno, "the session ends and saves");
    return 0;
}
