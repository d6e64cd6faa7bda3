/* any.c - in the place of the session: answers by dice, so that the C side is
 * seen to bear any answer. ANY_SEED is the seed. The names asked for lie in the
 * line or anywhere, the lengths asked for fit or do not. Every buffer that is
 * lent is touched at both ends, and every event must be one that station.h
 * allows after what was wanted. ANY_LOG gets a line for each event. */
#include "lavushmir.h"
#include "station.h"

#include <stdio.h>
#include <stdlib.h>

enum { TURNS = 60 };

static uint64_t dice(uint64_t sides)
{
    static uint64_t x;
    if (x == 0)
        x = strtoull(getenv("ANY_SEED"), NULL, 10) * 2654435769u + 88172645463325252u;
    x ^= x << 13;
    x ^= x >> 7;
    x ^= x << 17;
    return (x >> 16) % sides;
}

static uint64_t length(uint64_t limit)
{
    const uint64_t some[] = {0, 1, limit / 2, limit, limit, limit + 1, UINT64_MAX};
    return some[dice(7)];
}

static void touch(uint8_t *bytes, size_t count)
{
    if (count > 0) {
        bytes[0]++;
        bytes[count - 1]++;
    }
}

/* What may follow each want, as bits. */
#define E(event) (1u << STATION_EVENT_##event)
static const unsigned follows[] = {
    [STATION_WANTS_INPUT] = E(LINE) | E(END_OF_INPUT) | E(INTERRUPT) | E(TOO_LONG),
    [STATION_WANTS_GO_ON] = E(GO_ON) | E(INTERRUPT),
    [STATION_WANTS_SAVE] = E(SAVED) | E(NOT_SAVED),
    [STATION_WANTS_END] = 0,
    [STATION_WANTS_FILE] = E(FILE_READ) | E(FILE_MISSING),
    [STATION_WANTS_MAKE] = E(MADE) | E(FILE_MISSING),
    [STATION_WANTS_OTHER] = E(OTHER_MISSING),
    [STATION_WANTS_RESTORE] = E(RESTORED) | E(NOT_RESTORED),
};
static unsigned allowed = E(START);

static void came(uint64_t event)
{
    FILE *log = fopen(getenv("ANY_LOG"), "a");
    if (event > STATION_EVENT_TOO_LONG || !(allowed >> event & 1) || log == NULL ||
        fprintf(log, "%u\n", (unsigned)event) < 0 || fclose(log) != 0)
        abort();
}

static uint64_t answer(uint64_t *session, size_t line_bytes, size_t out_bytes)
{
    static const uint64_t limits[] = {16777216, 65536, 16777216, 65536};
    static int turns;
    uint64_t wants = ++turns > TURNS ? STATION_WANTS_END : dice(9);
    for (int i = STATION_WORD_NAME_FROM; i <= STATION_WORD_SECOND_TO; i++)
        session[i] = dice(4) == 0 ? dice(UINT64_MAX) : dice(line_bytes + 2);
    if (dice(2) == 0 && line_bytes > 0) { /* the whole line */
        session[STATION_WORD_NAME_FROM] = session[STATION_WORD_SECOND_FROM] = 0;
        session[STATION_WORD_NAME_TO] = session[STATION_WORD_SECOND_TO] = line_bytes;
    }
    for (int i = 0; i < 4; i++)
        session[STATION_WORD_RAM_BYTES + i] = dice(8) > 0 ? 4096 : length(limits[i]);
    if (wants == STATION_WANTS_END && turns < TURNS / 2)
        wants = STATION_WANTS_INPUT;
    allowed = wants < sizeof follows / sizeof *follows ? follows[wants] : follows[STATION_WANTS_GO_ON];
    return wants | dice(5) << 8 | dice(2) << 16 | (dice(20) == 0 ? UINT32_MAX : dice(out_bytes / 64)) << 32;
}

uint64_t station_panel_turn(uint64_t *session, uint64_t event, const uint8_t *in, size_t in_bytes, uint8_t *out,
                            size_t out_bytes, uint8_t *image, size_t image_bytes, const uint8_t *execution,
                            size_t execution_bytes, const uint8_t *bootstrap, size_t bootstrap_bytes, uint8_t *ram,
                            size_t ram_bytes, uint8_t *paper, size_t paper_bytes, uint8_t *journal,
                            size_t journal_bytes, uint8_t *index, size_t index_bytes)
{
    static size_t line_bytes;
    unsigned sum = 0;
    came(event);
    if (event == STATION_EVENT_LINE)
        line_bytes = in_bytes;
    for (size_t i = 0; i < in_bytes; i++)
        sum += in[i];
    for (size_t i = 0; i < execution_bytes; i++)
        sum += execution[i];
    for (size_t i = 0; i < bootstrap_bytes; i++)
        sum += bootstrap[i];
    for (size_t i = 0; i < out_bytes; i++)
        out[i] = (uint8_t)(sum % 2 == 0 && i % 64 == 0 ? '\n' : 'o');
    touch(image, image_bytes);
    touch(ram, ram_bytes);
    touch(paper, paper_bytes);
    touch(journal, journal_bytes);
    touch(index, index_bytes);
    return answer(session, line_bytes, out_bytes);
}

uint64_t station_compare_turn(uint64_t *session, uint8_t *out, size_t out_bytes, const uint8_t *image,
                              size_t image_bytes, const uint8_t *ram, size_t ram_bytes, const uint8_t *paper,
                              size_t paper_bytes, const uint8_t *journal, size_t journal_bytes,
                              const uint8_t *other_image, size_t other_image_bytes, const uint8_t *other_ram,
                              size_t other_ram_bytes, const uint8_t *other_paper, size_t other_paper_bytes,
                              const uint8_t *other_journal, size_t other_journal_bytes)
{
    const uint8_t *all[] = {image, ram, paper, journal, other_image, other_ram, other_paper, other_journal};
    size_t counts[] = {image_bytes, ram_bytes, paper_bytes, journal_bytes,
                       other_image_bytes, other_ram_bytes, other_paper_bytes, other_journal_bytes};
    unsigned sum = 0;
    for (int i = 0; i < 8; i++)
        if (counts[i] > 0)
            sum += all[i][0] + all[i][counts[i] - 1];
    out[0] = (uint8_t)sum;
    return answer(session, 0, out_bytes);
}

/* Done or refused, by dice too. The image is written either way: a C side that
 * saves what was refused would be seen to. The journal is the old one, of five
 * slots as conversions.py has it. */
uint64_t lavushmir_convert(const uint8_t *old, size_t old_bytes, uint8_t *image, size_t image_bytes,
                           const uint8_t *paper, size_t paper_bytes, const uint8_t *journal, size_t journal_bytes)
{
    static const uint64_t numbers[] = {LAVUSHMIR_DONE, LAVUSHMIR_BAD_PAPER, LAVUSHMIR_BAD_JOURNAL, LAVUSHMIR_BAD_IMAGE};
    const uint8_t *all[] = {old, paper, journal};
    size_t counts[] = {old_bytes, paper_bytes, journal_bytes};
    unsigned sum = 0;
    for (int i = 0; i < 3; i++)
        if (counts[i] > 0)
            sum += all[i][0] + all[i][counts[i] - 1];
    if (old_bytes != LAVUSHMIR_OLD_IMAGE_BYTES || image_bytes != LAVUSHMIR_IMAGE_BYTES ||
        journal_bytes != 5 * LAVUSHMIR_OLD_RECORD_BYTES)
        abort();
    image[0] = image[image_bytes - 1] = (uint8_t)sum;
    return numbers[dice(4)];
}
