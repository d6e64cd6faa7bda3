/* SHA-256 of "abc" and of a longer text. */
#include "program.h"

static const word constants[64] = {
    0x428a2f98, 0x71374491, 0xb5c0fbcf, 0xe9b5dba5, 0x3956c25b, 0x59f111f1, 0x923f82a4, 0xab1c5ed5,
    0xd807aa98, 0x12835b01, 0x243185be, 0x550c7dc3, 0x72be5d74, 0x80deb1fe, 0x9bdc06a7, 0xc19bf174,
    0xe49b69c1, 0xefbe4786, 0x0fc19dc6, 0x240ca1cc, 0x2de92c6f, 0x4a7484aa, 0x5cb0a9dc, 0x76f988da,
    0x983e5152, 0xa831c66d, 0xb00327c8, 0xbf597fc7, 0xc6e00bf3, 0xd5a79147, 0x06ca6351, 0x14292967,
    0x27b70a85, 0x2e1b2138, 0x4d2c6dfc, 0x53380d13, 0x650a7354, 0x766a0abb, 0x81c2c92e, 0x92722c85,
    0xa2bfe8a1, 0xa81a664b, 0xc24b8b70, 0xc76c51a3, 0xd192e819, 0xd6990624, 0xf40e3585, 0x106aa070,
    0x19a4c116, 0x1e376c08, 0x2748774c, 0x34b0bcb5, 0x391c0cb3, 0x4ed8aa4a, 0x5b9cca4f, 0x682e6ff3,
    0x748f82ee, 0x78a5636f, 0x84c87814, 0x8cc70208, 0x90befffa, 0xa4506ceb, 0xbef9a3f7, 0xc67178f2
};

static word state[8], schedule[64];
static byte block[64];
static word filled, total;

static word turned(word value, int by)
{
    return value >> by | value << (32 - by);
}

static void digest_block(void)
{
    word v[8], first, second;
    int at;
    for (at = 0; at < 16; at++)
        schedule[at] = (word)block[4 * at] << 24 | (word)block[4 * at + 1] << 16
            | (word)block[4 * at + 2] << 8 | block[4 * at + 3];
    for (; at < 64; at++) {
        word a = schedule[at - 15], b = schedule[at - 2];
        schedule[at] = schedule[at - 16] + (turned(a, 7) ^ turned(a, 18) ^ a >> 3)
            + schedule[at - 7] + (turned(b, 17) ^ turned(b, 19) ^ b >> 10);
    }
    for (at = 0; at < 8; at++)
        v[at] = state[at];
    for (at = 0; at < 64; at++) {
        int move;
        first = v[7] + (turned(v[4], 6) ^ turned(v[4], 11) ^ turned(v[4], 25))
            + ((v[4] & v[5]) ^ (~v[4] & v[6])) + constants[at] + schedule[at];
        second = (turned(v[0], 2) ^ turned(v[0], 13) ^ turned(v[0], 22))
            + ((v[0] & v[1]) ^ (v[0] & v[2]) ^ (v[1] & v[2]));
        for (move = 7; move > 0; move--)
            v[move] = v[move - 1];
        v[4] += first;
        v[0] = first + second;
    }
    for (at = 0; at < 8; at++)
        state[at] += v[at];
}

static void add(byte value)
{
    block[filled++] = value;
    total++;
    if (filled == 64) {
        digest_block();
        filled = 0;
    }
}

static void start(void)
{
    static const word first[8] = { 0x6a09e667, 0xbb67ae85, 0x3c6ef372, 0xa54ff53a,
                                   0x510e527f, 0x9b05688c, 0x1f83d9ab, 0x5be0cd19 };
    int at;
    for (at = 0; at < 8; at++)
        state[at] = first[at];
    filled = total = 0;
}

static void end(void)
{
    word bits = total * 8;
    int at;
    add(0x80);
    while (filled != 60)
        add(0);
    for (at = 24; at >= 0; at -= 8)
        add((byte)(bits >> at));
    for (at = 0; at < 8; at++)
        put_word(state[at]);
}

word program(void)
{
    int at;
    start();
    add('a');
    add('b');
    add('c');
    end();
    if (state[0] != 0xBA7816BFu || state[7] != 0xF20015ADu)
        return 1;
    start();
    for (at = 0; at < 700; at++)
        add((byte)next_random());
    end();
    return 0;
}
