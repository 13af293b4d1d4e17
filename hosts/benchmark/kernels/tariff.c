/* An interpreter: a tariff's program for a small machine with a stack, run for many journeys. Each of its instructions is a jump
 * to one of many places.
 */
#include "kernel.h"

enum { DEEP = 16, JOURNEYS = 32 };

enum { END, NUMBER, GIVEN, ADD, SUBTRACT, MULTIPLY, LEAST, GREATEST, COPY, SWAP, LESS, IF_ZERO, GO, DROP, HALF };

/* The fare is 150 cents; 12 for each kilometre, by a loop; 45 for each zone; at most 980; half for the young, but at least 75. */
static const u8 program[] = {
    NUMBER, 150, GIVEN, 0,
    COPY, IF_ZERO, 17, NUMBER, 1, SUBTRACT, SWAP, NUMBER, 12, ADD, SWAP, GO, 4,
    DROP, GIVEN, 1, NUMBER, 45, MULTIPLY, ADD,
    NUMBER, 245, NUMBER, 4, MULTIPLY, LEAST,
    GIVEN, 2, NUMBER, 18, LESS, IF_ZERO, 41, HALF, NUMBER, 75, GREATEST,
    END};

static i64 given[4];
static i64 stack[DEEP];

static i64 run(void) {
    i64 *top = stack;
    u32 next = 0;
    for (;;) {
        switch (program[next++]) {
        case END: return top[-1];
        case NUMBER: *top++ = program[next++]; break;
        case GIVEN: *top++ = given[program[next++] % 4]; break;
        case ADD: top--; top[-1] += *top; break;
        case SUBTRACT: top--; top[-1] -= *top; break;
        case MULTIPLY: top--; top[-1] *= *top; break;
        case LEAST: top--; if (*top < top[-1]) top[-1] = *top; break;
        case GREATEST: top--; if (*top > top[-1]) top[-1] = *top; break;
        case COPY: *top = top[-1]; top++; break;
        case SWAP: { i64 kept = top[-1]; top[-1] = top[-2]; top[-2] = kept; break; }
        case LESS: top--; top[-1] = top[-1] < *top; break;
        case IF_ZERO: next = *--top ? next + 1 : program[next]; break;
        case GO: next = program[next]; break;
        case DROP: top--; break;
        case HALF: top[-1] >>= 1; break;
        }
    }
}

u64 kernel(u64 rounds) {
    u64 seed = 3, sum = 0;
    for (u64 journey = 0; journey < rounds * JOURNEYS; journey++) {
        given[0] = chance(&seed) % 64;
        given[1] = chance(&seed) % 8;
        given[2] = chance(&seed) % 70;
        sum = sum * 31 + (u64)run();
    }
    return sum;
}
