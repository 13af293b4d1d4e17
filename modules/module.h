/* What every module has.
 *
 * A module is a C program for the house map: its code is at 0x10000, and all that it reads and writes, the constants and the
 * stack too, is in the window at 0x40000000. The card's own bytes stand at the window's start. main's result is in r4 when the
 * module ends, and the host reads what else it wants to know from the card.
 */
typedef unsigned char u8;
typedef unsigned short u16;
typedef unsigned int u32;
typedef unsigned long u64;
typedef int i32;
typedef long i64;

/* Puts the card at the window's start (map.ld). */
#define CARD __attribute__((section(".card")))

/* The host's clock, in seconds since the first of January 1970: a service call with code 1 (start.s). */
u64 clock_of_host(void);
