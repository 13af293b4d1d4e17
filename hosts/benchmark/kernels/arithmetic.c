/* Arithmetic in registers: shifts, additions and products in a loop without calls, loads or stores. */
#include "kernel.h"

enum { TURNS = 1000 };

u64 kernel(u64 rounds) {
    u64 sum = 0, x = 88172645463325252ul;
    for (u64 turn = 0; turn < rounds * TURNS; turn++) {
        x ^= x << 13;
        x ^= x >> 7;
        x ^= x << 17;
        sum += x * 0x9E3779B97F4A7C15ul + turn;
        sum = sum << 5 | sum >> 59;
    }
    return sum;
}
