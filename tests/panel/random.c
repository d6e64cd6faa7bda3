/* Random and mutated lines, events, session words and images: there is always an
   answer, and no byte outside a buffer is written.
 *
 *     random [SEED [TURNS]]
 */
#include "station.h"

static uint64_t seed = 1;

static uint64_t dice(uint64_t below)
{
    seed ^= seed << 13;
    seed ^= seed >> 7;
    seed ^= seed << 17;
    return seed % below;
}

static const char *const lines[] = {
    "", "run 10", "run 250000", "run exception", "run exception 100", "si", "rsi 3", "back 5",
    "back 99999999", "blame 0x20000100", "blame 0x20000101", "before 0x20000100",
    "info registers", "info cp0", "info tlb", "info clocks", "info printers", "info station",
    "paper", "paper 0", "paper 9", "x 0x1fc00000", "x/4096xb 0x20000000", "x/9999dw 0x1fbfffff",
    "xp/33ch 0x20000ffe", "x/3uh 0x10000000", "load text.bin 0x20000000", "compare other", "save",
    "restore", "quit", "abandon", "help", "help blame", "help new",
    "new ram 2 paper 80 journal 16 execution e bootstrap b", "new execution e bootstrap b",
    "load f 0xffffffffffffffff",
};

static size_t random_line(uint8_t *line)
{
    const char *from = lines[dice(sizeof lines / sizeof lines[0])];
    size_t n = strlen(from), i;
    memcpy(line, from, n);
    for (i = dice(4); i > 1; i--) {
        if (n == 0 || dice(3) == 0)
            line[n++] = (uint8_t)dice(256);
        else
            line[dice(n)] = (uint8_t)dice(256);
    }
    if (dice(50) == 0)
        n = dice(STATION_LINE_BYTES + 1);
    return n;
}

static struct lent random_buffer(size_t len)
{
    struct lent b = lend(len);
    size_t i;
    if (dice(4) == 0) {
        for (i = 0; i < 1 + len / 16 && len > 0; i++)
            b.bytes[dice(len)] = (uint8_t)dice(256);
    }
    return b;
}

/* Mostly a station that is sound, and sometimes one with any lengths. */
static struct station random_station(void)
{
    struct station s = no_station();
    uint8_t none = 0;
    leave(s);
    s.out = lend(dice(3) == 0 ? dice(200) : STATION_OUT_BYTES);
    s.image = lend(dice(20) == 0 ? dice(900) : STATION_IMAGE_BYTES);
    s.execution = random_buffer(4 * (1 + dice(16)));
    s.bootstrap = boot_rom();
    s.ram = random_buffer(dice(20) == 0 ? dice(9000) : 4096 * (1 + dice(3)));
    s.paper = random_buffer(dice(20) == 0 ? dice(100) : 8 * dice(20));
    s.journal = random_buffer(dice(20) == 0 ? dice(1000) : 512 * dice(40));
    s.index = random_buffer(dice(20) == 0 ? dice(100) : s.ram.len / 256);
    s.session[11] = 3; /* the mode, and the three parameters: crates/session/src/words.rt */
    s.session[16] = 1 + dice(255);
    s.session[17] = 1 + dice(30);
    s.session[18] = dice(256);
    turn(&s, STATION_EVENT_MADE, &none, 0);
    s.session[STATION_WORD_IS_THERE] = dice(10) != 0;
    s.session[STATION_WORD_ON_TERMINAL] = dice(2);
    s.session[STATION_WORD_ONE_COMMAND] = dice(3) == 0;
    return s;
}

/* A session whose words were made up may end with any exit status. */
static void check(const struct station *s, uint64_t answer)
{
    int known = station_wants(answer) <= STATION_WANTS_RESTORE && station_stream(answer) <= 1 &&
                (answer >> 24 & 0xFF) == 0;
    if (!known || station_bytes(answer) > s->out.len || !all_guarded(s)) {
        fprintf(stderr, "random: a bad answer, %016llx\n", (unsigned long long)answer);
        exit(1);
    }
}

/* A session goes on for some turns, with any event and now and then any words. */
static unsigned long session(struct station *s)
{
    static uint8_t line[2 * STATION_LINE_BYTES];
    unsigned long turns = 1 + (unsigned long)dice(40), k;
    for (k = 0; k < turns; k++) {
        uint64_t event = dice(3) != 0   ? STATION_EVENT_LINE
                         : dice(3) != 0 ? STATION_EVENT_GO_ON
                                        : dice(16);
        size_t n = random_line(line);
        if (dice(40) == 0)
            s->session[dice(STATION_SESSION_WORDS)] = dice(2) == 0 ? dice(12) : seed;
        if (dice(60) == 0 && s->image.len > 0)
            s->image.bytes[dice(s->image.len)] = (uint8_t)dice(256);
        check(s, turn(s, event, line, n));
        if (dice(50) == 0) {
            struct station other = random_station();
            check(s, compare(s, &other));
            leave(other);
        }
    }
    return turns;
}

int main(int argc, char **argv)
{
    unsigned long want = argc > 2 ? strtoul(argv[2], NULL, 10) : 100000, done = 0;
    if (argc > 1)
        seed = strtoull(argv[1], NULL, 10) * 2 + 1;
    while (done < want) {
        struct station s = random_station();
        done += session(&s);
        leave(s);
    }
    printf("random: %lu turns, always an answer\n", done);
    return 0;
}
