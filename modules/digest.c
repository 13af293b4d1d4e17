/* SHA-256 of the card's bytes, by which a gate sees that a card was not altered (FIPS 180-4).
 *
 * The card, from 0x40000000 on: how many bytes there are, the bytes, and the digest, which the module writes. Its result is the
 * digest's first eight bytes as a number.
 */
#include "module.h"

enum { MOST = 232, BLOCK = 64 };

CARD struct {
    u32 length;
    u8 bytes[MOST];
    u8 digest[32]; /* written */
} card;

static const u32 constants[BLOCK] = {
    0x428a2f98, 0x71374491, 0xb5c0fbcf, 0xe9b5dba5, 0x3956c25b, 0x59f111f1, 0x923f82a4, 0xab1c5ed5, 0xd807aa98, 0x12835b01,
    0x243185be, 0x550c7dc3, 0x72be5d74, 0x80deb1fe, 0x9bdc06a7, 0xc19bf174, 0xe49b69c1, 0xefbe4786, 0x0fc19dc6, 0x240ca1cc,
    0x2de92c6f, 0x4a7484aa, 0x5cb0a9dc, 0x76f988da, 0x983e5152, 0xa831c66d, 0xb00327c8, 0xbf597fc7, 0xc6e00bf3, 0xd5a79147,
    0x06ca6351, 0x14292967, 0x27b70a85, 0x2e1b2138, 0x4d2c6dfc, 0x53380d13, 0x650a7354, 0x766a0abb, 0x81c2c92e, 0x92722c85,
    0xa2bfe8a1, 0xa81a664b, 0xc24b8b70, 0xc76c51a3, 0xd192e819, 0xd6990624, 0xf40e3585, 0x106aa070, 0x19a4c116, 0x1e376c08,
    0x2748774c, 0x34b0bcb5, 0x391c0cb3, 0x4ed8aa4a, 0x5b9cca4f, 0x682e6ff3, 0x748f82ee, 0x78a5636f, 0x84c87814, 0x8cc70208,
    0x90befffa, 0xa4506ceb, 0xbef9a3f7, 0xc67178f2};

static u32 state[8] = {0x6a09e667, 0xbb67ae85, 0x3c6ef372, 0xa54ff53a, 0x510e527f, 0x9b05688c, 0x1f83d9ab, 0x5be0cd19};

static u32 turn(u32 x, u32 by) {
    return x >> by | x << (32 - by);
}

/* Byte i of the message as it is hashed: behind the card's bytes a one bit, zeros, and the length in bits. */
static u8 message(u64 i, u64 end) {
    if (i < card.length) return card.bytes[i];
    if (i == card.length) return 0x80;
    return i + 8 < end ? 0 : (u8)((u64)card.length * 8 >> (end - 1 - i) * 8);
}

static void schedule(u32 w[BLOCK], u64 from, u64 end) {
    for (u64 t = 0; t < 16; t++) {
        u64 at = from + t * 4;
        w[t] = (u32)message(at, end) << 24 | (u32)message(at + 1, end) << 16 | (u32)message(at + 2, end) << 8 | message(at + 3, end);
    }
    for (u64 t = 16; t < BLOCK; t++) {
        u32 low = turn(w[t - 15], 7) ^ turn(w[t - 15], 18) ^ w[t - 15] >> 3;
        u32 high = turn(w[t - 2], 17) ^ turn(w[t - 2], 19) ^ w[t - 2] >> 10;
        w[t] = w[t - 16] + low + w[t - 7] + high;
    }
}

static void add_block(const u32 w[BLOCK]) {
    u32 s[8];
    for (int i = 0; i < 8; i++) s[i] = state[i];
    for (int t = 0; t < BLOCK; t++) {
        u32 choice = (s[4] & s[5]) ^ (~s[4] & s[6]);
        u32 most = (s[0] & s[1]) ^ (s[0] & s[2]) ^ (s[1] & s[2]);
        u32 first = s[7] + (turn(s[4], 6) ^ turn(s[4], 11) ^ turn(s[4], 25)) + choice + constants[t] + w[t];
        u32 second = (turn(s[0], 2) ^ turn(s[0], 13) ^ turn(s[0], 22)) + most;
        for (int i = 7; i > 0; i--) s[i] = s[i - 1];
        s[4] += first;
        s[0] = first + second;
    }
    for (int i = 0; i < 8; i++) state[i] += s[i];
}

u64 main(void) {
    u32 w[BLOCK];
    u64 end = (card.length + 8) / BLOCK * BLOCK + BLOCK;
    if (card.length > MOST) return 0;
    for (u64 from = 0; from < end; from += BLOCK) {
        schedule(w, from, end);
        add_block(w);
    }
    for (int i = 0; i < 32; i++) card.digest[i] = (u8)(state[i / 4] >> (3 - i % 4) * 8);
    return (u64)state[0] << 32 | state[1];
}
