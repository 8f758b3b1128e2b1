/* Days added to rolling windows, and dropped. */
#include "rolling.h"

static void test_empty(void)
{
    static const ginghamowl_rolling_window zeros;
    static held_case c;
    ginghamowl_rolling_window w = ginghamowl_rolling_empty();

    c1_case(&c);
    CHECK(same_window(&w, &zeros));
    drops_not(&w, GINGHAMOWL_REFUSED_ROLLING_EMPTY);
    rolling_values_not(&w, &c, GINGHAMOWL_REFUSED_DAY_COUNT);
}

/* Fills the ring, goes round it twice and empties it. */
static void test_round(void)
{
    ginghamowl_rolling_window w = ginghamowl_rolling_empty();
    size_t number;

    for (number = 0; number < SLOTS; number++)
        adds(&w, numbered_day(number));
    for (; number < 3 * SLOTS; number++) {
        adds_not(&w, numbered_day(number), GINGHAMOWL_REFUSED_ROLLING_FULL);
        adds_not(&w, flat_day(-1001, 10001), GINGHAMOWL_REFUSED_ROLLING_FULL);
        drops(&w);
        adds(&w, numbered_day(number));
    }
    while (w.count > 0)
        drops(&w);
    drops_not(&w, GINGHAMOWL_REFUSED_ROLLING_EMPTY);
    CHECK(w.start == 0);
}

/* Additions and drops as they come, more of the one and then more of the other, so that the window is full and empty at times. */
static void test_scripts(void)
{
    ginghamowl_rolling_window w = ginghamowl_rolling_empty();
    uint64_t state = 88172645463325252u;
    unsigned long full = 0, empty = 0, change;

    for (change = 0; change < 3000; change++) {
        if (drawn(&state) % 10 < (change / 300 % 2 == 0 ? 7u : 3u)) {
            full += w.count == SLOTS;
            if (w.count == SLOTS)
                adds_not(&w, numbered_day(change), GINGHAMOWL_REFUSED_ROLLING_FULL);
            else
                adds(&w, numbered_day(change));
        } else {
            empty += w.count == 0;
            if (w.count == 0)
                drops_not(&w, GINGHAMOWL_REFUSED_ROLLING_EMPTY);
            else
                drops(&w);
        }
    }
    CHECK(full > 50 && empty > 50);
}

static void test_rates(void)
{
    static const int32_t wrong[] = {-1001, 10001, 65536, -65536, 64536, 75536, INT32_MIN, INT32_MAX};
    ginghamowl_rolling_window w = made_window(67, 5);
    size_t t, i;

    adds(&w, flat_day(-1000, 10000));
    adds(&w, flat_day(10000, -1000));
    for (t = 0; t < DAY; t++)
        for (i = 0; i < sizeof wrong / sizeof *wrong; i++) {
            ginghamowl_day day = flat_day(0, 0);

            day.rates[t] = wrong[i];
            adds_not(&w, day, GINGHAMOWL_REFUSED_RATE);
        }
}

void test_rolling_days(void)
{
    test_empty();
    test_round();
    test_scripts();
    test_rates();
}
