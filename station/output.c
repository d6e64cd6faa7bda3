/* output.c - see output.h. */
#include "output.h"

#include "io.h"
#include "say.h"
#include "station.h"

#include <errno.h>
#include <string.h>
#include <unistd.h>

static int failed;

void output_write(unsigned stream, const uint8_t *bytes, size_t count)
{
    if (stream != 0) {
        (void)io_write(STDERR_FILENO, bytes, count); /* nowhere to report a failure to report */
        return;
    }
    if (failed || io_write(STDOUT_FILENO, bytes, count) == 0)
        return;
    failed = 1;
    say("standard output", "cannot be written", errno, "the session ends and saves");
}

int output_failed(void)
{
    return failed;
}

int output_show(const char *text)
{
    output_write(0, (const uint8_t *)text, strlen(text));
    return failed ? STATION_EXIT_FILE : STATION_EXIT_DONE;
}
