/* any.c - in the place of the session: answers by dice, so that the C side of
 * lavushmir-gdb is seen to bear any answer. ANY_SEED is the seed. Every buffer
 * that is lent is touched at both ends, and every event must be one that
 * station.h allows after what was wanted. */
#include "lavushmir.h"
#include "station.h"

#include <stdlib.h>
#include <string.h>

enum { TURNS = 150 };

static uint64_t dice(uint64_t sides)
{
    static uint64_t x;
    if (x == 0)
        x = strtoull(getenv("ANY_SEED"), NULL, 10) * 2654435769u + 88172645463325252u;
    x ^= x << 13;
    x ^= x >> 7;
    x ^= x << 17;
    return (x >> 16) % sides;
}

static void touch(uint8_t *bytes, size_t count)
{
    if (count > 0) {
        bytes[0]++;
        bytes[count - 1]++;
    }
}

#define E(event) (1u << STATION_EVENT_##event)

uint64_t station_gdb_turn(uint64_t *session, uint64_t event, const uint8_t *in, size_t in_bytes, uint8_t *out,
                          size_t out_bytes, uint8_t *packet, size_t packet_bytes, uint8_t *reply, size_t reply_bytes,
                          uint8_t *image, size_t image_bytes, const uint8_t *execution, size_t execution_bytes,
                          const uint8_t *bootstrap, size_t bootstrap_bytes, uint8_t *ram, size_t ram_bytes,
                          uint8_t *paper, size_t paper_bytes, uint8_t *journal, size_t journal_bytes, uint8_t *index,
                          size_t index_bytes, uint8_t *kept, size_t kept_bytes)
{
    static unsigned allowed = E(START), turns;
    uint64_t wants = ++turns > TURNS ? STATION_WANTS_END : dice(30) == 0 ? STATION_WANTS_SAVE : dice(2);
    unsigned sum = 0;
    if (event > 31 || !(allowed >> event & 1))
        abort();
    for (size_t i = 0; i < in_bytes; i++)
        sum += in[i];
    for (size_t i = 0; i < execution_bytes; i++)
        sum += execution[i];
    for (size_t i = 0; i < bootstrap_bytes; i++)
        sum += bootstrap[i];
    memset(out, 'o', out_bytes);
    touch(packet, packet_bytes);
    touch(reply, reply_bytes);
    touch(image, image_bytes);
    touch(ram, ram_bytes);
    touch(paper, paper_bytes);
    touch(journal, journal_bytes);
    touch(index, index_bytes);
    touch(kept, kept_bytes);
    session[STATION_GDB_WORD_USED] = dice(10) == 0 ? UINT64_MAX - sum % 2 : dice(in_bytes + 2);
    session[STATION_GDB_WORD_SAID] = dice(10) == 0 ? UINT64_MAX : dice(8);
    if (event == STATION_EVENT_END_OF_INPUT)
        wants = STATION_WANTS_END;
    allowed = wants == STATION_WANTS_SAVE ? E(SAVED) | E(NOT_SAVED) : E(GO_ON) | E(INTERRUPT) | E(END_OF_INPUT);
    return wants | dice(5) << 8 | (dice(20) == 0 ? UINT32_MAX : dice(64)) << 32;
}

/* No station of an earlier version is opened here. */
uint64_t lavushmir_convert(const uint8_t *old, size_t old_bytes, uint8_t *image, size_t image_bytes,
                           const uint8_t *paper, size_t paper_bytes, const uint8_t *journal, size_t journal_bytes)
{
    (void)old, (void)old_bytes, (void)image, (void)image_bytes;
    (void)paper, (void)paper_bytes, (void)journal, (void)journal_bytes;
    abort();
}
