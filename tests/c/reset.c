/* Reset from C99, as the service panel calls it. */

#include "check.h"
#include "lavushmir.h"
#include "reset_image.h"

#include <string.h>

enum { GUARD = 16, ROOM = GUARD + LAVUSHMIR_IMAGE_BYTES + 1 + GUARD };
enum { FRAMES = 3, INDEX = FRAMES * LAVUSHMIR_INDEX_ENTRY_BYTES };
enum { MOST_INDEX = LAVUSHMIR_MOST_FRAMES * LAVUSHMIR_INDEX_ENTRY_BYTES };

static uint8_t frames[GUARD + MOST_INDEX + LAVUSHMIR_INDEX_ENTRY_BYTES];

/* Whether the bytes behind the guard are 0 up to `bytes`, and all others as filled. */
static int emptied(size_t bytes)
{
    size_t i, wrong = 0;
    for (i = 0; i < sizeof frames; i++)
        wrong += frames[i] != (i >= GUARD && i < GUARD + bytes ? 0 : 0xC9);
    return wrong == 0;
}

/* A buffer in which no byte is what reset writes there by chance alone. */
static void fill(uint8_t *room)
{
    size_t i;
    for (i = 0; i < ROOM; i++)
        room[i] = (uint8_t)(0xB0 + i % 61);
}

/* A whole answer without reason and steps, taken apart. */
static void check_answer(uint64_t answer, unsigned number, const char *what)
{
    check(lavushmir_number(answer) == number, what);
    check(lavushmir_reason(answer) == LAVUSHMIR_NO_REASON, what);
    check(lavushmir_steps(answer) == 0, what);
    check(answer == number, what);
}

static void refuses_index(size_t bytes, size_t index_bytes, uint64_t time_scale,
                          uint64_t printer_delay, uint64_t installed, unsigned number,
                          const char *what)
{
    uint8_t room[ROOM], before[ROOM];
    fill(room);
    memset(frames, 0xC9, sizeof frames);
    memcpy(before, room, ROOM);
    check_answer(lavushmir_reset(room + GUARD, bytes, frames + GUARD, index_bytes, time_scale,
                                 printer_delay, installed),
                 number, what);
    check(memcmp(room, before, ROOM) == 0, what);
    check(emptied(0), what);
}

static void refuses(size_t bytes, uint64_t time_scale, uint64_t printer_delay,
                    uint64_t installed, unsigned number, const char *what)
{
    refuses_index(bytes, INDEX, time_scale, printer_delay, installed, number, what);
}

static void resets(size_t index_bytes, uint64_t time_scale, uint64_t printer_delay,
                   uint64_t installed, const uint8_t *expected, const char *what)
{
    uint8_t room[ROOM], before[ROOM];
    uint8_t *image = room + GUARD;
    size_t behind = GUARD + LAVUSHMIR_IMAGE_BYTES;
    fill(room);
    memset(frames, 0xC9, sizeof frames);
    memcpy(before, room, ROOM);
    check_answer(lavushmir_reset(image, LAVUSHMIR_IMAGE_BYTES, frames + GUARD, index_bytes,
                                 time_scale, printer_delay, installed),
                 LAVUSHMIR_DONE, what);
    check(emptied(index_bytes), what);
    check(memcmp(image, expected, LAVUSHMIR_IMAGE_BYTES) == 0, what);
    check(memcmp(room, before, GUARD) == 0, what);
    check(memcmp(room + behind, before + behind, ROOM - behind) == 0, what);
}

/* The parts lie where they should, and no part reads another's bits. */
static void unpacks(void)
{
    uint64_t answer = UINT64_C(0x89ABCDEF00000207);
    check(lavushmir_number(answer) == 7, "number 7");
    check(lavushmir_reason(answer) == LAVUSHMIR_EXCEPTION, "reason 2");
    check(lavushmir_steps(answer) == 0x89ABCDEF, "steps 0x89ABCDEF");
    check(lavushmir_number(~UINT64_C(0xFF)) == 0, "number 0 among ones");
    check(lavushmir_reason(~UINT64_C(0xFF00)) == 0, "reason 0 among ones");
    check(lavushmir_steps(UINT64_C(0xFFFFFFFF)) == 0, "steps 0 beside ones");
}

int main(void)
{
    const uint64_t past = UINT64_C(1) << 32;
    uint8_t expected[LAVUSHMIR_IMAGE_BYTES];

    check(sizeof reset_image == LAVUSHMIR_IMAGE_BYTES, "741 bytes are written out");
    unpacks();

    resets(INDEX, 0x12, 0x3456, 0xA5, reset_image, "reset with 0x12, 0x3456, 0xA5");

    /* The lowest and the highest parameters: the last bytes of their words,
       and of each printer's STATUS, differ from the image written out. */
    memcpy(expected, reset_image, sizeof expected);
    expected[320] = 1;
    expected[323] = 0;
    expected[324] = 1;
    expected[328] = 0;
    expected[332] = expected[372] = expected[432] = expected[472] = 0;
    resets(LAVUSHMIR_INDEX_ENTRY_BYTES, 1, 1, 0, expected, "reset with the lowest parameters");
    expected[320] = 255;
    expected[323] = expected[324] = 255;
    expected[328] = 255;
    expected[332] = expected[352] = expected[372] = expected[392] = 1;
    expected[412] = expected[432] = expected[452] = expected[472] = 1;
    resets(MOST_INDEX, 255, 65535, 255, expected, "reset with the highest parameters");

    refuses(0, 1, 1, 0, LAVUSHMIR_BAD_IMAGE, "no image bytes");
    refuses(501, 1, 1, 0, LAVUSHMIR_BAD_IMAGE, "501 image bytes, as in version 1");
    refuses(509, 1, 1, 0, LAVUSHMIR_BAD_IMAGE, "509 image bytes, as in version 2");
    refuses(740, 1, 1, 0, LAVUSHMIR_BAD_IMAGE, "740 image bytes");
    refuses(742, 1, 1, 0, LAVUSHMIR_BAD_IMAGE, "742 image bytes");
    refuses(740, 0, 0, 256, LAVUSHMIR_BAD_IMAGE, "5 comes before 6");
    refuses(741, 0, 1, 0, LAVUSHMIR_BAD_PARAMETER, "time scale 0");
    refuses(741, 256, 1, 0, LAVUSHMIR_BAD_PARAMETER, "time scale 256");
    refuses(741, past + 1, 1, 0, LAVUSHMIR_BAD_PARAMETER, "time scale 2^32 + 1");
    refuses(741, 1, 0, 0, LAVUSHMIR_BAD_PARAMETER, "printer delay 0");
    refuses(741, 1, 65536, 0, LAVUSHMIR_BAD_PARAMETER, "printer delay 65,536");
    refuses(741, 1, past + 1, 0, LAVUSHMIR_BAD_PARAMETER, "printer delay 2^32 + 1");
    refuses(741, 1, 1, 256, LAVUSHMIR_BAD_PARAMETER, "installed map 256");
    refuses(741, 1, 1, past, LAVUSHMIR_BAD_PARAMETER, "installed map 2^32");
    refuses(741, UINT64_MAX, UINT64_MAX, UINT64_MAX, LAVUSHMIR_BAD_PARAMETER, "all ones");
    refuses_index(740, 0, 0, 0, 256, LAVUSHMIR_BAD_IMAGE, "5 comes before 10");
    refuses_index(741, 0, 0, 1, 0, LAVUSHMIR_BAD_PARAMETER, "6 comes before 10");
    refuses_index(741, 0, 1, 1, 0, LAVUSHMIR_BAD_INDEX, "no index");
    refuses_index(741, INDEX - 1, 1, 1, 0, LAVUSHMIR_BAD_INDEX, "a part of an entry");
    refuses_index(741, MOST_INDEX + 16, 1, 1, 0, LAVUSHMIR_BAD_INDEX, "4,097 entries");

    return checked("reset");
}
