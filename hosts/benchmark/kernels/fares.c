/* Fares with divisions: what journeys cost by zones and distance, with shares, rounding and day caps. The tariff is known only when the
 * kernel runs, so the divisions stay divisions.
 */
#include "kernel.h"

enum { ZONES = 8, DAYS = 28, A_DAY = 12 };

struct tariff {
    u32 metres; /* of a part that is paid for */
    u32 cents;  /* for each part */
    u32 of;     /* a rider's share is 1 of so many */
    u32 coin;   /* fares are rounded down to a multiple */
    u64 cap;    /* for a day */
};

static struct tariff tariffs[ZONES];
static u32 stops_in_zone;
static u32 minutes_in_day;
static volatile u64 first_seed = 4;

static void make_tariffs(u64 *seed) {
    for (u32 i = 0; i < ZONES; i++)
        tariffs[i] = (struct tariff){300 + chance(seed) % 700, 5 + chance(seed) % 20, 1 + chance(seed) % 4, 5 * (1 + chance(seed) % 4),
                                     900 + chance(seed) % 600};
    stops_in_zone = 10 + chance(seed) % 10;
    minutes_in_day = 1440 + chance(seed) % 2;
}

static u64 fare(const struct tariff *tariff, u32 metres, u32 minute) {
    u64 parts = (metres + tariff->metres - 1) / tariff->metres;
    u64 cents = parts * tariff->cents * (minute % minutes_in_day < 540 ? 5 : 4) / tariff->of;
    return cents - cents % tariff->coin;
}

static u64 day(u64 *seed) {
    u64 spent = 0;
    for (u32 i = 0; i < A_DAY; i++) {
        u32 stop = chance(seed), metres = chance(seed) % 20000;
        const struct tariff *tariff = &tariffs[stop / stops_in_zone % ZONES];
        u64 left = tariff->cap - spent % tariff->cap, cost = fare(tariff, metres, stop);
        spent += cost < left ? cost : left;
    }
    return spent;
}

u64 kernel(u64 rounds) {
    if (!rounds) return 0;
    u64 seed = first_seed, sum = 0;
    make_tariffs(&seed);
    for (u64 i = 0; i < rounds * DAYS; i++) sum = sum * 31 + day(&seed);
    return sum;
}
