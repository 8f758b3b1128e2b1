/* Rolling windows that are damaged, and such as only look it. */
#include "rolling.h"

/* Numbers out of range, also such as a cut to fewer bytes, or a sum that goes past 64 bits, would let pass. */
static void test_count_and_start(ginghamowl_rolling_window w)
{
    const uint64_t counts[] = {71, w.count + 70, w.count + 256, w.count + ((uint64_t)1 << 32), w.count + ((uint64_t)1 << 63),
                               UINT64_MAX - w.start, UINT64_MAX};
    const uint64_t starts[] = {70, w.start + 70, w.start + 256, w.start + ((uint64_t)1 << 32), w.start + ((uint64_t)1 << 63),
                               UINT64_MAX - w.count, UINT64_MAX};
    ginghamowl_rolling_window damaged;
    size_t i;

    for (i = 0; i < sizeof counts / sizeof *counts; i++) {
        damaged = w;
        damaged.count = counts[i];
        takes_not(&damaged);
    }
    damaged = w;
    damaged.count = 71; /* the oldest day counted twice, also in the sums */
    set_sums(&damaged);
    takes_not(&damaged);
    for (i = 0; i < sizeof starts / sizeof *starts; i++) {
        damaged = w;
        damaged.start = starts[i];
        takes_not(&damaged);
    }
}

static void test_sums(ginghamowl_rolling_window w)
{
    static const size_t terms[] = {0, 1, 30, 58, 59};
    size_t i;

    for (i = 0; i < sizeof terms / sizeof *terms; i++) {
        const int64_t sum = w.sums[terms[i]];
        const int64_t wrong[] = {sum + 1, sum - 1, sum ^ ((int64_t)1 << 16), sum ^ ((int64_t)1 << 32), sum ^ INT64_MIN, ~sum};
        size_t k;

        for (k = 0; k < sizeof wrong / sizeof *wrong; k++) {
            w.sums[terms[i]] = wrong[k];
            takes_not(&w);
        }
        w.sums[terms[i]] = sum;
    }
}

/* One rate of a held day, with the sums set to what it is then: only the limits decide. */
static void test_held_rate(ginghamowl_rolling_window w, size_t place)
{
    static const int16_t wrong[] = {-1001, 10001, INT16_MIN, INT16_MAX};
    size_t i;

    for (i = 0; i < sizeof wrong / sizeof *wrong; i++) {
        w.rates[place] = wrong[i];
        set_sums(&w);
        takes_not(&w);
    }
    w.rates[place] = -1000;
    set_sums(&w);
    takes(&w);
    w.rates[place] = 10000;
    takes_not(&w); /* the sums are still the old ones */
    set_sums(&w);
    takes(&w);
}

static void test_windows(void)
{
    static const uint64_t windows[][2] = {{0, 0}, {69, 0}, {0, 1}, {69, 1}, {35, 36}, {12, 70}}; /* start and count */
    size_t i;

    for (i = 0; i < sizeof windows / sizeof *windows; i++) {
        ginghamowl_rolling_window w = made_window(windows[i][0], windows[i][1]);

        takes(&w);
        test_count_and_start(w);
        test_sums(w);
        if (w.count > 0) {
            test_held_rate(w, place_of(&w, 0));
            test_held_rate(w, place_of(&w, w.count / 2) + 30);
            test_held_rate(w, place_of(&w, w.count - 1) + DAY - 1);
            w.count--;
            takes_not(&w);
        }
    }
}

/* Where no slot or every slot is held, the oldest day may be anywhere; else the days held are others. */
static void test_start(void)
{
    ginghamowl_rolling_window empty = made_window(0, 0), full = made_window(0, SLOTS), some = made_window(0, SLOTS - 1);

    for (; full.start < SLOTS; full.start++) {
        empty.start = some.start = full.start;
        takes(&empty);
        takes(&full);
        if (some.start > 0) {
            CHECK(is_damaged(&some));
            drops_not(&some, GINGHAMOWL_REFUSED_DAMAGED);
        }
    }
}

/* A few bytes changed: 27 exactly where a count, a start, a held rate or a sum is wrong. */
static void test_bytes(void)
{
    uint64_t state = 88172645463325252u;
    unsigned long damaged = 0, round;

    for (round = 0; round < 2000; round++) {
        uint64_t start = drawn(&state) % SLOTS, count = drawn(&state) % (SLOTS + 1), hits;
        ginghamowl_rolling_window w = made_window(start, count);
        uint8_t bytes[sizeof w];

        memcpy(bytes, &w, sizeof w);
        for (hits = 1 + drawn(&state) % 3; hits > 0; hits--) {
            size_t at = drawn(&state) % 8 == 0 ? drawn(&state) % 16 : drawn(&state) % sizeof bytes;

            bytes[at] = (uint8_t)(drawn(&state) % 2 == 0 ? drawn(&state) % 72 : drawn(&state) % 256);
        }
        memcpy(&w, bytes, sizeof w);
        damaged += is_damaged(&w);
        if (is_damaged(&w)) {
            adds_not(&w, numbered_day(round), GINGHAMOWL_REFUSED_DAMAGED);
            drops_not(&w, GINGHAMOWL_REFUSED_DAMAGED);
        } else
            takes(&w);
    }
    CHECK(damaged > 500 && damaged < 1500);
}

void test_rolling_damaged(void)
{
    test_windows();
    test_start();
    test_bytes();
}
