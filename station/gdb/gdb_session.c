/* gdb_session.c - the loop over station_gdb_turn: see gdb_session.h and station.h. */
#include "gdb_session.h"

#include "gdb_input.h"
#include "lent.h"
#include "output.h"
#include "signals.h"
#include "station.h"

static uint64_t session[STATION_GDB_WORDS];
static uint8_t out[STATION_GDB_OUT_BYTES], packet[STATION_GDB_PACKET_BYTES], reply[STATION_GDB_REPLY_BYTES];
static uint8_t kept[STATION_GDB_KEPT_BYTES];

/* What goes to gdb, and behind it what goes to standard error. */
static void show(uint64_t answer)
{
    size_t count = station_bytes(answer), said = session[STATION_GDB_WORD_SAID];
    if (count > sizeof out || said > count)
        return;
    output_write(0, out, count - said);
    output_write(1, out + count - said, said);
}

static uint64_t turn(uint64_t event)
{
    sf_file *f = lent.files;
    size_t count;
    const uint8_t *in = gdb_input_bytes(&count);
    uint64_t answer = station_gdb_turn(
        session, event, in, count, out, sizeof out, packet, sizeof packet, reply, sizeof reply, f[IMAGE].data,
        f[IMAGE].length, lent.roms[EXECUTION].data, lent.roms[EXECUTION].length, lent.roms[BOOTSTRAP].data,
        lent.roms[BOOTSTRAP].length, f[RAM].data, f[RAM].length, f[PAPER].data, f[PAPER].length, f[JOURNAL].data,
        f[JOURNAL].length, f[INDEX].data, f[INDEX].length, kept, sizeof kept);
    show(answer);
    gdb_input_use(session[STATION_GDB_WORD_USED]);
    return answer;
}

/* Nobody waits for a run when the program is to end, or when what it says goes nowhere. */
static int is_over(void)
{
    return signals_ended() || output_failed();
}

static uint64_t outcome(station *s, unsigned wants)
{
    if (wants == STATION_WANTS_SAVE)
        return wants_save(s);
    if (is_over())
        return STATION_EVENT_END_OF_INPUT;
    if (signals_interrupted())
        return STATION_EVENT_INTERRUPT;
    return gdb_input_more(wants == STATION_WANTS_INPUT) ? STATION_EVENT_GO_ON : STATION_EVENT_END_OF_INPUT;
}

int gdb_session_run(station *s)
{
    uint64_t answer, event = STATION_EVENT_START;
    for (;;) {
        answer = turn(event);
        if (station_wants(answer) == STATION_WANTS_END)
            return output_failed() ? STATION_EXIT_FILE : (int)station_status(answer);
        event = outcome(s, station_wants(answer));
    }
}
