/* How many days a pass is still good for. It asks the host for the time, on the way.
 *
 * The card, from 0x40000000 on: the day on which the pass was bought and for how many days, and then what the module writes: today's
 * date and its weekday. Its result is the number of days that are left, negative where the pass is over.
 */
#include "module.h"

struct date {
    i32 year;
    i32 month;
    i32 day;
};

CARD struct {
    struct date bought;
    i32 days;
    struct date today; /* written */
    i32 weekday;       /* written; 0 is Sunday */
} card;

/* Whole quotients and remainders that round downward, as a calendar needs them. */
static i64 floor_of(i64 a, i64 b) {
    return a / b - (a % b < 0);
}

static i64 rest_of(i64 a, i64 b) {
    return a - floor_of(a, b) * b;
}

/* Days from the first of January 1970. The year begins in March here, so that the leap day is its last. */
static i64 number_of(struct date d) {
    i64 year = d.month > 2 ? d.year : d.year - 1;
    i64 month = rest_of(d.month - 3, 12);
    i64 in_year = (month * 153 + 2) / 5 + d.day - 1;
    return year * 365 + floor_of(year, 4) - floor_of(year, 100) + floor_of(year, 400) + in_year - 719468;
}

/* The date of a day: guesses the year, and goes on until its first of January is not after the day. */
static struct date date_of(i64 number) {
    struct date d = {(i32)floor_of(number * 400, 146097) + 1971, 1, 1};
    while (number_of(d) > number) d.year--;
    d.month = 12;
    while (number_of(d) > number) d.month--;
    d.day = (i32)(number - number_of(d)) + 1;
    return d;
}

u64 main(void) {
    i64 today = floor_of((i64)clock_of_host(), 24 * 60 * 60);
    card.today = date_of(today);
    card.weekday = (i32)rest_of(today + 4, 7);
    return (u64)(number_of(card.bought) + card.days - today);
}
