/* Runs an operator's tariff, which the card has as a small program for a machine with a stack.
 *
 * The card, from 0x40000000 on: four numbers of the journey, the tariff's program, an instruction a byte, some with a byte behind
 * them, and the fare, which the module writes. Its result is how many instructions were run, or -1 where the tariff is not well made.
 */
#include "module.h"

enum { PROGRAM = 96, DEEP = 12, TURNS = 2000 };

enum { END, NUMBER, GIVEN, ADD, SUBTRACT, MULTIPLY, DIVIDE, LEAST, GREATEST, COPY, SWAP, LESS, IF_ZERO, GO, DROP };

CARD struct {
    i64 given[4];
    i64 fare; /* written */
    u8 program[PROGRAM];
} card;

static i64 stack[DEEP];

/* How many numbers an instruction takes from the stack, and how many it puts there. */
static const u8 popped[] = {1, 0, 0, 2, 2, 2, 2, 2, 2, 1, 2, 2, 1, 0, 1};
static const u8 pushed[] = {0, 1, 1, 1, 1, 1, 1, 1, 1, 2, 2, 1, 0, 0, 0};

static u32 next;  /* instruction */
static u32 depth; /* how many numbers are on the stack */

static u8 byte_of_program(void) {
    u8 b = card.program[next % PROGRAM];
    next = (next + 1) % PROGRAM;
    return b;
}

static void run(u8 what, i64 a, i64 b) {
    i64 *top = &stack[depth];
    switch (what) {
    case NUMBER: top[0] = byte_of_program(); break;
    case GIVEN: top[0] = card.given[byte_of_program() % 4]; break;
    case ADD: top[0] = a + b; break;
    case SUBTRACT: top[0] = a - b; break;
    case MULTIPLY: top[0] = a * b; break;
    case DIVIDE: top[0] = b ? a / b : 0; break;
    case LEAST: top[0] = a < b ? a : b; break;
    case GREATEST: top[0] = a < b ? b : a; break;
    case COPY: top[0] = top[1] = b; break;
    case SWAP: top[0] = b; top[1] = a; break;
    case LESS: top[0] = a < b; break;
    case IF_ZERO: next = b ? next + 1 : byte_of_program(); break;
    case GO: next = byte_of_program(); break;
    case DROP: break;
    }
}

u64 main(void) {
    for (u64 turn = 0; turn < TURNS; turn++) {
        u8 what = byte_of_program();
        if (what >= sizeof popped || depth < popped[what] || depth - popped[what] + pushed[what] > DEEP) return -1ul;
        i64 a = depth > 1 ? stack[depth - 2] : 0;
        i64 b = depth > 0 ? stack[depth - 1] : 0;
        depth -= popped[what];
        if (what == END) {
            card.fare = b;
            return turn;
        }
        run(what, a, b);
        depth += pushed[what];
    }
    return -1ul;
}
