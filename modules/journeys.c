/* The card's journeys in the order of time, which gates that were offline have mixed up, and how many of them were changes.
 *
 * The card, from 0x40000000 on: how many journeys there are, and the journeys, which the module sorts in place. Its result is the
 * number of those that began within 45 minutes of the one before, which are changes and cost nothing.
 */
#include "module.h"

enum { JOURNEYS = 96, CHANGE = 45 * 60 };

struct journey {
    u64 time; /* seconds since 1970 */
    u32 gate;
    u16 stop;
    u16 line;
};

CARD struct {
    u32 count;
    u32 unused;
    struct journey journeys[JOURNEYS];
} card;

/* Which comes first; of two at the same time the one from the lower gate. */
static int before(const struct journey *a, const struct journey *b) {
    if (a->time != b->time) return a->time < b->time;
    return a->gate < b->gate;
}

static void swap(struct journey *a, struct journey *b) {
    struct journey kept = *a;
    *a = *b;
    *b = kept;
}

/* Quicksort by the middle one: those before it go to the front, and each side is sorted by itself. */
static void sort(struct journey *some, u64 n) {
    if (n < 2) return;
    swap(&some[0], &some[n / 2]);
    u64 front = 0;
    for (u64 i = 1; i < n; i++)
        if (before(&some[i], &some[0])) swap(&some[++front], &some[i]);
    swap(&some[0], &some[front]);
    sort(some, front);
    sort(some + front + 1, n - front - 1);
}

static u64 changes(const struct journey *some, u64 n) {
    u64 found = 0;
    for (u64 i = 1; i < n; i++) found += some[i].time - some[i - 1].time <= CHANGE;
    return found;
}

u64 main(void) {
    u64 n = card.count < JOURNEYS ? card.count : JOURNEYS;
    sort(card.journeys, n);
    return changes(card.journeys, n);
}
