/* One session with the lines of a script, as the C side of a station would hold
   it; what it shows goes to standard output, with a note in [ ] for what the
   session wants beside the next line.
 *
 *     panel (prompt|script|arguments) < LINES
 */
#include "station.h"

static char line[STATION_LINE_BYTES + 2];

/* Two entries of the translation table for one page, one for the next, and a
   load from the next page and one from the first. */
static struct lent doubled_rom(void)
{
    static const uint32_t words[] = {
        0x3C088000, /* lui   t0, 0x8000 */
        0x40885000, /* mtc0  t0, EntryHi */
        0x3C092000, /* lui   t1, 0x2000 */
        0x35290600, /* ori   t1, t1, 0x600: D, V */
        0x40891000, /* mtc0  t1, EntryLo */
        0x42000002, /* tlbwi: entry 0 */
        0x340A0300, /* ori   t2, zero, 0x300 */
        0x408A0000, /* mtc0  t2, Index */
        0x42000002, /* tlbwi: entry 3 */
        0x35081000, /* ori   t0, t0, 0x1000 */
        0x40885000, /* mtc0  t0, EntryHi */
        0x340A0500, /* ori   t2, zero, 0x500 */
        0x408A0000, /* mtc0  t2, Index */
        0x42000002, /* tlbwi: entry 5 */
        0x400B6000, /* mfc0  t3, Status */
        0x3C0C0100, /* lui   t4, 0x100: VMc */
        0x016C5825, /* or    t3, t3, t4 */
        0x408B6000, /* mtc0  t3, Status */
        0x8D0D0000, /* lw    t5, 0(t0) */
        0x8D0EFFFC, /* lw    t6, -4(t0) */
    };
    return code(words, sizeof words / sizeof words[0], sizeof words);
}

/* The files that a script may name; 0 for one that is not there. */
static int file_named(const char *name, struct lent *file)
{
    if (strcmp(name, "boot.rom") == 0) {
        *file = boot_rom();
        return 1;
    }
    if (strcmp(name, "doubled.rom") == 0) {
        *file = doubled_rom();
        return 1;
    }
    if (strcmp(name, "exec.rom") == 0) {
        *file = lend(4);
        return 1;
    }
    if (strcmp(name, "bad.rom") == 0) {
        *file = lend(6);
        return 1;
    }
    if (strcmp(name, "text.bin") == 0) {
        *file = lend(12);
        memcpy(file->bytes, "units mm\n\x01\xff\x7f", 12);
        return 1;
    }
    return 0;
}

static void name_in(const uint64_t *session, size_t from, size_t to, char *name, size_t room)
{
    size_t a = (size_t)session[from], b = (size_t)session[to];
    if (b < a || b > strlen(line) || b - a >= room) {
        fprintf(stderr, "a name that does not lie in the line\n");
        exit(1);
    }
    memcpy(name, line + a, b - a);
    name[b - a] = 0;
}

/* Both ROMs are read and all buffers are made, or nothing. */
static uint64_t make(struct station *s)
{
    char first[128], second[128];
    struct lent execution, bootstrap;
    name_in(s->session, STATION_WORD_NAME_FROM, STATION_WORD_NAME_TO, first, sizeof first);
    name_in(s->session, STATION_WORD_SECOND_FROM, STATION_WORD_SECOND_TO, second, sizeof second);
    if (!file_named(first, &execution)) {
        printf("[no file %s]\n", first);
        return STATION_EVENT_FILE_MISSING;
    }
    if (!file_named(second, &bootstrap)) {
        printf("[no file %s]\n", second);
        give_back(execution);
        return STATION_EVENT_FILE_MISSING;
    }
    give_back(s->execution);
    give_back(s->bootstrap);
    give_back(s->ram);
    give_back(s->paper);
    give_back(s->journal);
    give_back(s->index);
    s->execution = execution;
    s->bootstrap = bootstrap;
    s->ram = lend((size_t)s->session[STATION_WORD_RAM_BYTES]);
    s->paper = lend((size_t)s->session[STATION_WORD_PAPER_BYTES]);
    s->journal = lend((size_t)s->session[STATION_WORD_JOURNAL_BYTES]);
    s->index = lend((size_t)s->session[STATION_WORD_INDEX_BYTES]);
    return STATION_EVENT_MADE;
}

static uint64_t next_line(int echo)
{
    size_t n;
    if (fgets(line, sizeof line, stdin) == NULL)
        return STATION_EVENT_END_OF_INPUT;
    n = strlen(line);
    if (n > 0 && line[n - 1] == '\n') {
        line[--n] = 0;
    } else if (n > STATION_LINE_BYTES) {
        int c;
        while ((c = getchar()) != EOF && c != '\n') {
        }
        if (echo)
            printf("(a long line)\n");
        return STATION_EVENT_TOO_LONG;
    }
    if (echo)
        printf("%s\n", line);
    if (strcmp(line, "^C") == 0)
        return STATION_EVENT_INTERRUPT;
    return STATION_EVENT_LINE;
}

/* What the session shows is written, and the bytes are counted. */
static void show(const struct station *s, uint64_t answer)
{
    if (station_bytes(answer) > s->out.len || !all_guarded(s)) {
        fprintf(stderr, "bytes beyond a buffer\n");
        exit(1);
    }
    if (station_stream(answer) == 1)
        printf("[error]\n");
    fwrite(s->out.bytes, 1, station_bytes(answer), stdout);
}

static uint64_t file(const struct station *s, struct lent *in)
{
    char name[128];
    name_in(s->session, STATION_WORD_NAME_FROM, STATION_WORD_NAME_TO, name, sizeof name);
    if (!file_named(name, in)) {
        printf("[no file %s]\n", name);
        *in = lend(0);
        return STATION_EVENT_FILE_MISSING;
    }
    return STATION_EVENT_FILE_READ;
}

int main(int argc, char **argv)
{
    struct station s = no_station();
    struct lent in = lend(0);
    uint64_t event = STATION_EVENT_START;
    int saves = 0, echo = argc == 2 && strcmp(argv[1], "prompt") == 0;
    s.session[STATION_WORD_ON_TERMINAL] = (uint64_t)echo;
    s.session[STATION_WORD_ONE_COMMAND] = argc == 2 && strcmp(argv[1], "arguments") == 0;
    for (;;) {
        uint64_t answer = event == STATION_EVENT_LINE
                              ? turn(&s, event, (const uint8_t *)line, strlen(line))
                              : turn(&s, event, in.bytes, in.len);
        show(&s, answer);
        give_back(in);
        in = lend(0);
        switch (station_wants(answer)) {
        case STATION_WANTS_INPUT:
            event = next_line(echo);
            break;
        case STATION_WANTS_GO_ON:
            event = STATION_EVENT_GO_ON;
            break;
        case STATION_WANTS_SAVE:
            /* Every third save fails. */
            saves++;
            printf(saves % 3 == 0 ? "[not saved]\n" : "[saved]\n");
            event = saves % 3 == 0 ? STATION_EVENT_NOT_SAVED : STATION_EVENT_SAVED;
            break;
        case STATION_WANTS_END:
            printf("[end %u]\n", station_status(answer));
            give_back(in);
            leave(s);
            return 0;
        case STATION_WANTS_FILE:
            give_back(in);
            event = file(&s, &in);
            break;
        case STATION_WANTS_MAKE:
            event = make(&s);
            break;
        case STATION_WANTS_OTHER: {
            char name[128];
            name_in(s.session, STATION_WORD_NAME_FROM, STATION_WORD_NAME_TO, name, sizeof name);
            if (strcmp(name, "fresh") == 0) {
                struct station other = no_station();
                answer = compare(&s, &other);
                leave(other);
                show(&s, answer);
                event = next_line(echo);
                break;
            }
            printf("[no station %s]\n", name);
            event = STATION_EVENT_OTHER_MISSING;
            break;
        }
        case STATION_WANTS_RESTORE:
            printf("[restored]\n");
            event = STATION_EVENT_RESTORED;
            break;
        default:
            fprintf(stderr, "an answer that wants nothing known\n");
            return 1;
        }
    }
}
