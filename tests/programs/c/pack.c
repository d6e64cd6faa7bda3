/* Packs a text by references to what came before, and unpacks it again. */
#include "program.h"

#define LENGTH 1200
#define LEAST 3
#define MOST 18
#define BACK 255

static byte text[LENGTH], packed[2 * LENGTH], unpacked[LENGTH];

static void make_text(void)
{
    static const char *const words[] = { "crown ", "mill ", "inch ", "units ", "import " };
    word at = 0, other;
    while (at < LENGTH) {
        const char *from = words[next_random() % 5];
        while (*from && at < LENGTH)
            text[at++] = (byte)*from++;
        if (next_random() % 4 == 0)
            for (other = 0; other < 3 && at < LENGTH; other++)
                text[at++] = (byte)next_random();
    }
}

static word match(word at, word back)
{
    word length = 0;
    while (length < MOST && at + length < LENGTH && text[at + length] == text[at + length - back])
        length++;
    return length;
}

static word pack(void)
{
    word at = 0, to = 0, back, length;
    while (at < LENGTH) {
        word best = 0, best_back = 0;
        for (back = 1; back <= BACK && back <= at; back += 1) {
            if (text[at] != text[at - back])
                continue;
            length = match(at, back);
            if (length > best) {
                best = length;
                best_back = back;
            }
        }
        if (best >= LEAST) {
            packed[to++] = (byte)best;
            packed[to++] = (byte)best_back;
            at += best;
        } else {
            packed[to++] = 0;
            packed[to++] = text[at++];
        }
    }
    return to;
}

static word unpack(word length)
{
    word from, to = 0;
    for (from = 0; from < length; from += 2) {
        word count = packed[from], back = packed[from + 1];
        if (count == 0)
            unpacked[to++] = packed[from + 1];
        else
            for (; count; count--, to++)
                unpacked[to] = unpacked[to - back];
    }
    return to;
}

word program(void)
{
    word length, at;
    make_text();
    length = pack();
    if (unpack(length) != LENGTH)
        return 1;
    for (at = 0; at < LENGTH; at++)
        if (text[at] != unpacked[at])
            return 2;
    for (at = 0; at < length; at++)
        put(packed[at]);
    return length < LENGTH ? 0 : 3;
}
