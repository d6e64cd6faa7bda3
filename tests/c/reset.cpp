// Reset from C++11: the same header, the same archive.

#include "lavushmir.h"
#include "reset_image.h"

#include <algorithm>
#include <cstdio>
#include <vector>

static unsigned checks = 0;
static unsigned failures = 0;

static void check(bool right, const char *what)
{
    checks++;
    if (!right) {
        failures++;
        std::printf("c++: failed: %s\n", what);
    }
}

static void refuses(size_t bytes, uint64_t time_scale, unsigned number, const char *what)
{
    std::vector<uint8_t> image(bytes, 0xB7), index(LAVUSHMIR_INDEX_ENTRY_BYTES, 0xB7);
    const std::vector<uint8_t> before = image, index_before = index;
    const uint64_t answer =
        lavushmir_reset(image.data(), image.size(), index.data(), index.size(), time_scale, 0x3456,
                        0xA5);
    check(lavushmir_number(answer) == number, what);
    check(lavushmir_reason(answer) == LAVUSHMIR_NO_REASON, what);
    check(lavushmir_steps(answer) == 0, what);
    check(image == before && index == index_before, what);
}

int main()
{
    static_assert(sizeof reset_image == LAVUSHMIR_IMAGE_BYTES, "741 bytes are written out");

    std::vector<uint8_t> image(LAVUSHMIR_IMAGE_BYTES, 0xB7);
    std::vector<uint8_t> index(2 * LAVUSHMIR_INDEX_ENTRY_BYTES, 0xB7);
    lavushmir_buffers all = {};
    all.image = image.data();
    all.image_bytes = image.size();
    all.index = index.data();
    all.index_bytes = index.size();
    const uint64_t answer = lavushmir_buffers_reset(&all, 0x12, 0x3456, 0xA5);
    check(answer == LAVUSHMIR_DONE, "reset is done");
    check(lavushmir_number(answer) == LAVUSHMIR_DONE, "number of a reset");
    check(lavushmir_reason(answer) == LAVUSHMIR_NO_REASON, "reason of a reset");
    check(lavushmir_steps(answer) == 0, "steps of a reset");
    check(std::equal(image.begin(), image.end(), reset_image), "image of a reset");
    check(std::count(index.begin(), index.end(), 0) == 2 * LAVUSHMIR_INDEX_ENTRY_BYTES,
          "index of a reset");

    refuses(LAVUSHMIR_IMAGE_BYTES - 1, 0x12, LAVUSHMIR_BAD_IMAGE, "740 image bytes");
    refuses(LAVUSHMIR_IMAGE_BYTES + 1, 0, LAVUSHMIR_BAD_IMAGE, "742 image bytes, time scale 0");
    refuses(LAVUSHMIR_IMAGE_BYTES, 0, LAVUSHMIR_BAD_PARAMETER, "time scale 0");

    if (failures != 0) {
        std::printf("c++: %u of %u checks failed\n", failures, checks);
        return 1;
    }
    std::printf("c++: %u checks passed\n", checks);
    return 0;
}
