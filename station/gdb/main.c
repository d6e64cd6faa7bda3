/* main.c - the program lavushmir-gdb: its argument, and the station it names. */
#include "convert.h"
#include "gdb_session.h"
#include "lent.h"
#include "output.h"
#include "signals.h"
#include "station.h"
#include "streams.h"

#include <string.h>

#define USAGE "usage: lavushmir-gdb STATION    gdb's remote protocol on standard input and output\n"

#define HELP                                                                   \
    USAGE "\n"                                                                 \
    "In gdb: target remote | lavushmir-gdb STATION\n"                          \
    "The station is saved at detach and when gdb ends, and not at kill.\n\n"   \
    "Exit status: 0 done, 2 usage, 3 trouble with a file,\n"                   \
    "4 another program holds the station.\n"

static int usage(void)
{
    output_write(1, (const uint8_t *)USAGE, strlen(USAGE));
    return STATION_EXIT_USAGE;
}

static int load(station *s)
{
    int r = sf_open(&s->files, s->path);
    if (r == SF_OK)
        r = sf_load(&s->files, lent.roms, ROMS, lent.files, FILES);
    return r == SF_OK && convert_is_due(s->path, &lent) ? SF_TROUBLE : r;
}

int main(int argc, char **argv)
{
    static station s;
    int r;
    streams_hold();
    signals_catch();
    if (argc == 2 && strcmp(argv[1], "--help") == 0)
        return output_show(HELP);
    if (argc != 2 || *argv[1] == '\0' || *argv[1] == '-')
        return usage();
    s.path = argv[1];
    r = load(&s);
    return r == SF_OK ? gdb_session_run(&s) : r;
}
