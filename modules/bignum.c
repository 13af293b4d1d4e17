/* Whether the operator signed the card: signature ^ 65537 modulo the operator's number must be the message. Big numbers of 512 bits.
 *
 * The card, from 0x40000000 on: four numbers of 64 bytes, the lowest byte first: modulus, signature, message, and the power, which
 * the module writes. Its result is 1 if the power is the message and 0 if not.
 */
#include "module.h"

enum { PARTS = 8 };

typedef unsigned __int128 u128;
typedef u64 number[PARTS];

CARD struct {
    number modulus; /* odd */
    number signature;
    number message;
    number power; /* written */
} card;

static void copy(number to, const number from) {
    for (int i = 0; i < PARTS; i++) to[i] = from[i];
}

static int below(const number a, const number b) {
    for (int i = PARTS - 1; i >= 0; i--)
        if (a[i] != b[i]) return a[i] < b[i];
    return 0;
}

static void subtract(number a, const number b) {
    u64 borrow = 0;
    for (int i = 0; i < PARTS; i++) {
        u128 d = (u128)a[i] - b[i] - borrow;
        a[i] = (u64)d;
        borrow = (u64)(d >> 64) & 1;
    }
}

/* Takes the modulus off once where a number with this carry is not below it. */
static void reduce(number a, u64 carry) {
    if (carry || !below(a, card.modulus)) subtract(a, card.modulus);
}

static void twice(number a) {
    u64 carry = 0;
    for (int i = 0; i < PARTS; i++) {
        u64 out = a[i] >> 63;
        a[i] = a[i] << 1 | carry;
        carry = out;
    }
    reduce(a, carry);
}

/* The number whose product with the modulus is -1 in 64 bits: each turn doubles how many bits are right. */
static u64 negative_inverse(u64 odd) {
    u64 x = 1;
    for (int i = 0; i < 6; i++) x *= 2 - odd * x;
    return -x;
}

/* sum = (sum + a * b) with b one part, and what is carried out. */
static u64 add_product(u64 *sum, const number a, u64 b, u64 top) {
    u64 carry = 0;
    for (int i = 0; i < PARTS; i++) {
        u128 t = (u128)a[i] * b + sum[i] + carry;
        sum[i] = (u64)t;
        carry = (u64)(t >> 64);
    }
    u128 t = (u128)sum[PARTS] + carry + top;
    sum[PARTS] = (u64)t;
    return (u64)(t >> 64);
}

/* Montgomery's product: a * b / 2^512 modulo the modulus. */
static void multiply(number to, const number a, const number b, u64 inverse) {
    u64 sum[2 * PARTS];
    u64 top = 0;
    for (int i = 0; i < 2 * PARTS; i++) sum[i] = 0;
    for (int i = 0; i < PARTS; i++) add_product(sum + i, a, b[i], 0);
    for (int i = 0; i < PARTS; i++) top = add_product(sum + i, card.modulus, sum[i] * inverse, top);
    copy(to, sum + PARTS);
    reduce(to, top);
}

u64 main(void) {
    static const number one = {1};
    number square, base, power;
    u64 inverse = negative_inverse(card.modulus[0]);
    copy(square, one); /* becomes 2^1024, which takes a number into Montgomery's form */
    for (int i = 0; i < 2 * 512; i++) twice(square);
    multiply(base, card.signature, square, inverse);
    copy(power, base);
    for (int i = 0; i < 16; i++) multiply(power, power, power, inverse);
    multiply(power, power, base, inverse);
    multiply(card.power, power, one, inverse);
    return !below(card.power, card.message) && !below(card.message, card.power);
}
