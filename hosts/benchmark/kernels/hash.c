/* A hash over bytes with a table: CRC-32 of a message, each round of another one. */
#include "kernel.h"

enum { MESSAGE = 4096 };

static u32 table[256];
static u8 message[MESSAGE];

static void make_table(void) {
    for (u32 i = 0; i < 256; i++) {
        u32 entry = i;
        for (int bit = 0; bit < 8; bit++) entry = entry >> 1 ^ (entry & 1 ? 0xEDB88320u : 0);
        table[i] = entry;
    }
}

static void make_message(void) {
    u64 seed = 1;
    for (u32 i = 0; i < MESSAGE; i++) message[i] = (u8)chance(&seed);
}

u64 kernel(u64 rounds) {
    if (!rounds) return 0;
    make_table();
    make_message();
    u64 sum = 0;
    for (u64 round = 0; round < rounds; round++) {
        u32 crc = ~0u;
        for (u32 i = 0; i < MESSAGE; i++) crc = crc >> 8 ^ table[(crc ^ message[i]) & 255];
        message[round % MESSAGE] = (u8)crc;
        sum = sum * 31 + ~crc;
    }
    return sum;
}
