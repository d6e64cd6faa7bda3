/* main.c - the program lavushmir: its arguments, and the station they name. */
#include "convert.h"
#include "input.h"
#include "lent.h"
#include "output.h"
#include "say.h"
#include "session.h"
#include "signals.h"
#include "station.h"
#include "streams.h"

#include <errno.h>
#include <string.h>
#include <sys/stat.h>
#include <unistd.h>

#define USAGE                                                                  \
    "usage: lavushmir STATION              commands from standard input\n"     \
    "       lavushmir STATION COMMAND..    one command\n"                      \
    "       lavushmir --restore STATION    back to the save before a bad one\n" \
    "       lavushmir --convert STATION    from an earlier version to this one\n" \
    "       lavushmir --help, lavushmir --version\n"

#define HELP                                                                   \
    USAGE "\n"                                                                 \
    "STATION is a folder with a machine's ROMs and its saved state. To make\n" \
    "one, and for every other command:\n\n"                                    \
    "       lavushmir STATION new execution FILE bootstrap FILE\n"             \
    "       lavushmir STATION help\n\n"                                        \
    "Exit status: 0 done, 1 refused, 2 usage, 3 trouble with a file,\n"        \
    "4 another program holds the station.\n"

#define VERSION "lavushmir 0.9\n"

static int usage(void)
{
    output_write(1, (const uint8_t *)USAGE, strlen(USAGE));
    return STATION_EXIT_USAGE;
}

static int restore(const char *path)
{
    static sf_station s;
    int r = sf_open(&s, path);
    if (r == SF_OK)
        r = sf_restore(&s, lent.files, FILES);
    return r == SF_OK ? output_show("the save before the present one is in force again\n") : r;
}

static int option(int count, char **words)
{
    if (count == 1 && strcmp(words[0], "--help") == 0)
        return output_show(HELP);
    if (count == 1 && strcmp(words[0], "--version") == 0)
        return output_show(VERSION);
    if (count == 2 && strcmp(words[0], "--restore") == 0)
        return restore(words[1]);
    if (count == 2 && strcmp(words[0], "--convert") == 0)
        return convert_station(words[1]);
    return usage();
}

/* A path where nothing is, is a station that is yet to be made. */
static int load(station *s)
{
    struct stat st;
    int r;
    s->files.fd = -1;
    if (lstat(s->path, &st) != 0 && errno == ENOENT)
        return SF_OK;
    r = sf_open(&s->files, s->path);
    if (r == SF_OK)
        r = sf_load(&s->files, lent.roms, ROMS, lent.files, FILES);
    return r == SF_OK && convert_is_due(s->path, &lent) ? SF_TROUBLE : r;
}

int main(int argc, char **argv)
{
    static station s;
    int r, one_command = argc > 2;
    streams_hold();
    signals_catch();
    if (argc < 2 || *argv[1] == '\0')
        return usage();
    if (*argv[1] == '-')
        return option(argc - 1, argv + 1);
    s.path = argv[1];
    r = load(&s);
    if (r != SF_OK)
        return r;
    if (one_command)
        input_from_words(argv + 2, argc - 2);
    return session_run(&s, !one_command && isatty(STDIN_FILENO) && isatty(STDOUT_FILENO), one_command);
}
