/* A sort with calls: journeys by time, by quicksort, and by insertion where few are left. Every comparison is a call. */
#include "kernel.h"

enum { JOURNEYS = 600, FEW = 8 };

struct journey {
    u64 time;
    u32 card;
    u16 stop;
    u16 kind;
};

static struct journey journeys[JOURNEYS];

static __attribute__((noinline)) int before(const struct journey *a, const struct journey *b) {
    if (a->time != b->time) return a->time < b->time;
    if (a->card != b->card) return a->card < b->card;
    return a->stop < b->stop;
}

static void swap(struct journey *a, struct journey *b) {
    struct journey kept = *a;
    *a = *b;
    *b = kept;
}

static void insert(struct journey *from, i64 count) {
    for (i64 i = 1; i < count; i++)
        for (i64 j = i; j > 0 && before(&from[j], &from[j - 1]); j--) swap(&from[j], &from[j - 1]);
}

static void sort(struct journey *from, i64 count) {
    while (count > FEW) {
        struct journey middle = from[count / 2];
        i64 low = 0, high = count - 1;
        while (low <= high) {
            while (before(&from[low], &middle)) low++;
            while (before(&middle, &from[high])) high--;
            if (low <= high) swap(&from[low++], &from[high--]);
        }
        sort(from, high + 1);
        from += low;
        count -= low;
    }
    insert(from, count);
}

u64 kernel(u64 rounds) {
    u64 seed = 2, sum = 0;
    for (u64 round = 0; round < rounds; round++) {
        for (i64 i = 0; i < JOURNEYS; i++) {
            u32 drawn = chance(&seed);
            journeys[i] = (struct journey){drawn % 4096, drawn >> 12, (u16)drawn, (u16)i};
        }
        sort(journeys, JOURNEYS);
        for (i64 i = 0; i < JOURNEYS; i++) sum = sum * 31 + journeys[i].time + journeys[i].kind;
    }
    return sum;
}
