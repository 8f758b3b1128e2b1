/* Cases valued with the days of a rolling window. */
#include "rolling.h"

static void test_values(uint64_t rate_bytes)
{
    static const uint64_t windows[][2] = {{0, 1}, {69, 1}, {69, 2}, {35, 36}, {0, 70}, {12, 70}}; /* start and count */
    static const size_t lengths[] = {0, 1, 239, 240, 241, 1000};
    static held_case c;
    ginghamowl_rolling_window w;
    size_t i, f, r;

    for (i = 0; i < sizeof windows / sizeof *windows; i++) {
        w = made_window(windows[i][0], windows[i][1]);
        c1_case(&c);
        in_form(&c, rate_bytes);
        rolling_values(&w, &c);
        largest_case(&c);
        in_form(&c, rate_bytes);
        rolling_values(&w, &c);
    }
    for (f = 0; f < sizeof lengths / sizeof *lengths; f++)
        for (r = 0; r < sizeof lengths / sizeof *lengths; r++) {
            int small = lengths[f] < GINGHAMOWL_ENTRIES || lengths[r] < GINGHAMOWL_ENTRIES;

            rolling_value_into(&w, &c, small ? GINGHAMOWL_REFUSED_BUFFER : GINGHAMOWL_ACCEPTED, lengths[f], lengths[r]);
        }
}

/* Refusal 6 for the window's days: their sums count, and change with each day. */
static void test_growth(void)
{
    static held_case c;
    ginghamowl_rolling_window w = made_window(69, 0);

    c1_case(&c);
    adds(&w, flat_day(0, 6000)); /* C8 */
    rolling_values(&w, &c);
    adds(&w, flat_day(0, 6001));
    rolling_values_not(&w, &c, GINGHAMOWL_REFUSED_GROWTH);
    adds(&w, flat_day(0, 5999));
    rolling_values(&w, &c);
    drops(&w);
    rolling_values(&w, &c);
    drops(&w);
    adds(&w, flat_day(-1, 6001));
    rolling_values_not(&w, &c, GINGHAMOWL_REFUSED_GROWTH);
    drops(&w);
    drops(&w);
    adds(&w, flat_day(0, -1000));
    rolling_values(&w, &c);
    adds(&w, flat_day(1, -1000));
    rolling_values_not(&w, &c, GINGHAMOWL_REFUSED_GROWTH);
}

/* 13; the case's faults, of which the first is given, its own 6 included; then 4 or 6 for the window's days. */
static void test_order(uint64_t rate_bytes)
{
    static held_case c;
    const fault *faults = in_order(rate_bytes);
    ginghamowl_rolling_window empty = ginghamowl_rolling_empty(), steep = made_window(3, 0), right = made_window(3, 2);
    int first, second;

    adds(&steep, flat_day(0, 6001));
    for (first = 0; first < FAULTS; first++)
        for (second = first; second < FAULTS; second++) {
            uint8_t refusal = refusal_of(faults[first]);

            two_faults(&c, rate_bytes, faults[first], faults[second]);
            rolling_values_not(&right, &c, refusal);
            rolling_values_not(&empty, &c, refusal);
            rolling_values_not(&steep, &c, refusal);
        }
    c1_case(&c);
    in_form(&c, rate_bytes);
    rolling_values(&right, &c);
    rolling_values_not(&empty, &c, GINGHAMOWL_REFUSED_DAY_COUNT);
    rolling_values_not(&steep, &c, GINGHAMOWL_REFUSED_GROWTH);
}

/* The case's own days are judged by its own form, not by the window's, whose days are in two bytes. */
static void test_forms(void)
{
    static held_case c;
    ginghamowl_rolling_window w = made_window(68, 4);
    size_t i;

    c1_case(&c);
    flat_days(&c, 1, 10001, 10001); /* 10.001 percent, or 0.10001 */
    rolling_values_not(&w, &c, GINGHAMOWL_REFUSED_RATE);
    c.fields.rate_bytes = GINGHAMOWL_FOUR_BYTES;
    rolling_values(&w, &c);
    flat_days(&c, 1, 0, 6001); /* a forward rate of 12.002 percent, or of 0.12002 */
    rolling_values(&w, &c);
    c.fields.rate_bytes = GINGHAMOWL_TWO_BYTES;
    rolling_values_not(&w, &c, GINGHAMOWL_REFUSED_GROWTH);
    for (i = 0; i < NO_RATE_BYTES_COUNT; i++) {
        c.fields.rate_bytes = NO_RATE_BYTES[i];
        rolling_values_not(&w, &c, GINGHAMOWL_REFUSED_MAP);
    }
    w.sums[0]++;
    takes_not(&w);
    rolling_value_into(&w, &c, GINGHAMOWL_REFUSED_DAMAGED, 240, 240);
}

void test_rolling_value(void)
{
    test_values(GINGHAMOWL_TWO_BYTES);
    test_order(GINGHAMOWL_TWO_BYTES);
    test_values(GINGHAMOWL_FOUR_BYTES);
    test_order(GINGHAMOWL_FOUR_BYTES);
    test_growth();
    test_forms();
}
