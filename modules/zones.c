/* What a week's journeys cost: a fare for each from the zones that it crosses, and at most so much in a day and in a week.
 *
 * The card, from 0x40000000 on: the caps in cents, how many journeys there are, and the journeys in the order in which they were
 * made. The module writes the fare of each journey and the sum of each day. Its result is the sum of the week.
 */
#include "module.h"

enum { JOURNEYS = 40, DAYS = 7, STOPS = 24, ZONES = 5 };

struct journey {
    u8 day;  /* 0 to 6 */
    u8 from; /* the stop where the rider got on */
    u8 to;
    u8 unused;
    u16 minute; /* of the day */
    u16 fare;   /* written: what it added, in cents */
};

CARD struct {
    u32 day_cap;
    u32 week_cap;
    u32 count;
    u32 by_day[DAYS]; /* written */
    struct journey journeys[JOURNEYS];
} card;

static const u8 zone_of[STOPS] = {0, 0, 1, 1, 1, 2, 2, 3, 3, 4, 4, 4, 3, 2, 2, 1, 1, 0, 2, 4, 3, 3, 1, 0};

/* By how many borders are crossed: at quiet times, and at busy ones. */
static const u16 fares[ZONES][2] = {{180, 240}, {260, 340}, {310, 420}, {390, 515}, {450, 600}};

static int busy(u32 minute) {
    return (minute >= 6 * 60 + 30 && minute < 9 * 60) || (minute >= 16 * 60 && minute < 18 * 60 + 30);
}

static u32 borders(u32 from, u32 to) {
    i32 apart = (i32)zone_of[from % STOPS] - (i32)zone_of[to % STOPS];
    return (u32)(apart < 0 ? -apart : apart);
}

static u32 at_most(u32 sum, u32 cap) {
    return sum < cap ? sum : cap;
}

/* What a journey still costs where so much of a cap is left. */
static u32 charge(const struct journey *j, u32 left_today, u32 left_this_week) {
    u32 fare = fares[borders(j->from, j->to)][busy(j->minute)];
    return at_most(at_most(fare, left_today), left_this_week);
}

u64 main(void) {
    u32 week = 0;
    for (u32 i = 0; i < card.count && i < JOURNEYS; i++) {
        struct journey *j = &card.journeys[i];
        u32 *today = &card.by_day[j->day % DAYS];
        u32 fare = charge(j, card.day_cap - *today, card.week_cap - week);
        j->fare = (u16)fare;
        *today += fare;
        week += fare;
    }
    return week;
}
