/* session.c - the loop over station_panel_turn: see session.h and station.h. */
#include "session.h"

#include "input.h"
#include "lent.h"
#include "output.h"
#include "signals.h"
#include "station.h"

static uint64_t session[STATION_SESSION_WORDS];
static uint8_t out[STATION_OUT_BYTES];

static uint64_t shown(uint64_t answer)
{
    size_t count = station_bytes(answer);
    output_write(station_stream(answer), out, count < sizeof out ? count : sizeof out);
    if (output_failed())
        input_stop();
    return answer;
}

static uint64_t turn(uint64_t event, size_t file_bytes)
{
    sf_file *f = lent.files;
    size_t count = 0;
    const uint8_t *in = input_line(&count);
    if (event == STATION_EVENT_FILE_READ) {
        in = lent_file;
        count = file_bytes;
    } else if (event != STATION_EVENT_LINE) {
        count = 0;
    }
    return shown(station_panel_turn(session, event, in, count, out, sizeof out, f[IMAGE].data, f[IMAGE].length,
                                    lent.roms[EXECUTION].data, lent.roms[EXECUTION].length,
                                    lent.roms[BOOTSTRAP].data, lent.roms[BOOTSTRAP].length, f[RAM].data, f[RAM].length,
                                    f[PAPER].data, f[PAPER].length, f[JOURNAL].data, f[JOURNAL].length, f[INDEX].data,
                                    f[INDEX].length));
}

static uint64_t compare(void)
{
    const sf_file *f = lent.files, *o = lent_other.files;
    return shown(station_compare_turn(session, out, sizeof out, f[IMAGE].data, f[IMAGE].length, f[RAM].data,
                                      f[RAM].length, f[PAPER].data, f[PAPER].length, f[JOURNAL].data,
                                      f[JOURNAL].length, o[IMAGE].data, o[IMAGE].length, o[RAM].data, o[RAM].length,
                                      o[PAPER].data, o[PAPER].length, o[JOURNAL].data, o[JOURNAL].length));
}

/* Nobody waits for a run when Ctrl-C came, when the program is to end, or when
 * what it shows goes nowhere. */
static uint64_t go_on(void)
{
    int stop = signals_interrupted() || signals_ended() || output_failed();
    return stop ? STATION_EVENT_INTERRUPT : STATION_EVENT_GO_ON;
}

static uint64_t outcome(station *s, unsigned wants, size_t *file_bytes)
{
    switch (wants) {
    case STATION_WANTS_INPUT:
        return input_next();
    case STATION_WANTS_SAVE:
        return wants_save(s);
    case STATION_WANTS_FILE:
        return wants_file(session, file_bytes);
    case STATION_WANTS_MAKE:
        return wants_make(session);
    case STATION_WANTS_RESTORE:
        return wants_restore(s);
    case STATION_WANTS_OTHER:
        return STATION_EVENT_OTHER_MISSING;
    default:
        return go_on();
    }
}

int session_run(station *s, int on_terminal, int one_command)
{
    uint64_t answer, event = STATION_EVENT_START;
    size_t file_bytes = 0;
    session[STATION_WORD_IS_THERE] = s->files.fd >= 0;
    session[STATION_WORD_ON_TERMINAL] = on_terminal != 0;
    session[STATION_WORD_ONE_COMMAND] = one_command != 0;
    for (;;) {
        answer = turn(event, file_bytes);
        if (station_wants(answer) == STATION_WANTS_OTHER && wants_other(s, session) == 0)
            answer = compare();
        if (station_wants(answer) == STATION_WANTS_END)
            return input_failed() || output_failed() ? STATION_EXIT_FILE : (int)station_status(answer);
        event = outcome(s, station_wants(answer), &file_bytes);
    }
}
