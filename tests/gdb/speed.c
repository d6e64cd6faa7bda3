/* A run with one breakpoint and one watched word, that are never met, beside one
 * without: the least processor time of several, and their ratio.
 *
 *     speed [STEPS [FRAMES]]
 */
#include "machine.h"

#include <time.h>

static double now(void)
{
    struct timespec t;
    clock_gettime(CLOCK_PROCESS_CPUTIME_ID, &t);
    return (double)t.tv_sec + 1e-9 * (double)t.tv_nsec;
}

static void ask(struct machine *m, const char *packet)
{
    send(m, (const uint8_t *)packet, strlen(packet));
    while (station_bytes(turn(m, STATION_EVENT_GO_ON)) == 0)
        ;
}

/* The seconds of about so many steps: turns are counted, as a run says nothing. */
static double run(struct machine *m, uint32_t steps)
{
    uint32_t from = word(m, WORD_CLOCK);
    double began = now(), took;
    send(m, (const uint8_t *)"vCont;c", 7);
    do {
        turn(m, STATION_EVENT_GO_ON);
    } while (word(m, WORD_CLOCK) - from < steps);
    took = (now() - began) * steps / (word(m, WORD_CLOCK) - from);
    m->in.bytes[m->in_use++] = 3;
    turn(m, STATION_EVENT_GO_ON);
    return took;
}

int main(int argc, char **argv)
{
    uint32_t steps = argc > 1 ? (uint32_t)strtoul(argv[1], NULL, 10) : 500000;
    size_t frames = argc > 2 ? strtoul(argv[2], NULL, 10) : 64;
    struct machine m = make_machine(frames, 16384);
    double plain = 1e9, pointed = 1e9, took;
    ask(&m, "QStartNoAckMode");
    run(&m, 200000); /* the journal is full from here on */
    for (int i = 0; i < 15; i++) {
        took = run(&m, steps);
        plain = took < plain ? took : plain;
        ask(&m, "Z0,1fc00f00,4");
        ask(&m, "Z2,20000800,4");
        took = run(&m, steps);
        pointed = took < pointed ? took : pointed;
        ask(&m, "z0,1fc00f00,4");
        ask(&m, "z2,20000800,4");
    }
    printf("speed: %.1f ns a step plainly, %.1f with a breakpoint and a watched word: %.2f times\n", plain / steps * 1e9,
           pointed / steps * 1e9, pointed / plain);
    leave(&m);
    return pointed > 2 * plain;
}
