/* The UFR from a history of months. */
#include "months.h"

/* Lengths and starts out of range, also such as a cut to fewer bytes, or another turn of the ring, would let pass. Where one is
 * wrong, no month is looked at. */
static void test_lengths(void)
{
    static const size_t lengths[] = {0, 1, 2, 120, 239, 240, 241, 242, 480};
    static const uint64_t starts[] = {0, 1, 60, 119, 120, 121, 239, 240, 256, 65536, (uint64_t)1 << 32, ((uint64_t)1 << 32) + 5,
                                      (uint64_t)1 << 63, UINT64_MAX - 119, UINT64_MAX};
    held_history right = flat_months(3100), wrong = flat_months(3100);
    size_t i, k;

    set_month(wrong.bytes, 0, -1001);
    for (i = 0; i < sizeof lengths / sizeof *lengths; i++)
        for (k = 0; k < sizeof starts / sizeof *starts; k++) {
            right.length = wrong.length = lengths[i];
            right.start = wrong.start = starts[k];
            if (lengths[i] == 240 && starts[k] <= 119) {
                gives(&right, GINGHAMOWL_ACCEPTED, 3100);
                refuses(&wrong, GINGHAMOWL_REFUSED_MONTH);
            } else {
                refuses(&right, GINGHAMOWL_REFUSED_HISTORY);
                refuses(&wrong, GINGHAMOWL_REFUSED_HISTORY);
            }
        }
}

/* One month at each limit and past it, and numbers that pass with their bytes exchanged or with one of them alone. */
static void test_limits(void)
{
    static const int wrong[] = {-1001, 10001, INT16_MIN, INT16_MAX, 0x7f00, -0x7f00};
    size_t place, i;

    for (place = 0; place < MONTHS; place++) {
        held_history h = flat_months(3149); /* 1 more in each month would round upward */

        set_month(h.bytes, place, 10000);
        gives(&h, GINGHAMOWL_ACCEPTED, 3200);
        set_month(h.bytes, place, -1000);
        gives(&h, GINGHAMOWL_ACCEPTED, 3100);
        for (i = 0; i < sizeof wrong / sizeof *wrong; i++) {
            set_month(h.bytes, place, wrong[i]);
            refuses(&h, GINGHAMOWL_REFUSED_MONTH);
        }
    }
}

/* Where the mean is half a hundred below q hundreds it is rounded to these, and a 120th of a step less to a hundred less. */
static void test_rounding(void)
{
    int q;

    for (q = -9; q <= 100; q++) {
        held_history half = with_sum(12000 * q - 6000), less = with_sum(12000 * q - 6001);

        if (q >= 0 && q <= 50)
            gives(&half, GINGHAMOWL_ACCEPTED, 100 * (uint64_t)q);
        else
            refuses(&half, GINGHAMOWL_REFUSED_MONTHS_UFR);
        if (q >= 1 && q <= 51)
            gives(&less, GINGHAMOWL_ACCEPTED, 100 * (uint64_t)(q - 1));
        else
            refuses(&less, GINGHAMOWL_REFUSED_MONTHS_UFR);
    }
}

/* At each month end the oldest month is replaced, as the header has it: the UFR is that of the last 120 months. */
static void test_ends(void)
{
    enum { ENDS = 3 * MONTHS + 7 };
    held_history h = flat_months(0);
    int months[MONTHS + ENDS] = {0}, end, back, sum;

    for (end = MONTHS; end < MONTHS + ENDS; end++) {
        months[end] = end * end % 9001 - 400;
        set_month(h.bytes, h.start, months[end]);
        h.start = (h.start + 1) % MONTHS;
        for (sum = 0, back = 0; back < MONTHS; back++) {
            sum += months[end - back];
            CHECK(month_at(h.bytes, (h.start + MONTHS - 1 - (size_t)back) % MONTHS) == months[end - back]);
        }
        gives(&h, GINGHAMOWL_ACCEPTED, (uint64_t)rounded(sum));
    }
}

/* Any bytes, and histories with a byte or two changed. */
static void test_bytes(void)
{
    uint64_t state = 88172645463325252u;
    unsigned long seen[20] = {0}, round;

    for (round = 0; round < 4000; round++) {
        held_history h = with_sum((int)(drawn(&state) % 1320001) - 120000);
        uint64_t hits = drawn(&state) % 16 == 0 ? GINGHAMOWL_HISTORY_BYTES : drawn(&state) % 3;
        uint8_t refusal;

        h.start = drawn(&state) % (MONTHS + 5);
        if (drawn(&state) % 16 == 0)
            h.length = drawn(&state) % (MOST_HISTORY + 1);
        for (; hits > 0; hits--)
            h.bytes[drawn(&state) % GINGHAMOWL_HISTORY_BYTES] = (uint8_t)drawn(&state);
        refusal = history_refusal(&h);
        gives(&h, refusal, refusal == GINGHAMOWL_ACCEPTED ? (uint64_t)rounded_mean(&h) : 0);
        seen[refusal]++;
    }
    CHECK(seen[GINGHAMOWL_ACCEPTED] > 500 && seen[GINGHAMOWL_REFUSED_HISTORY] > 200);
    CHECK(seen[GINGHAMOWL_REFUSED_MONTH] > 500 && seen[GINGHAMOWL_REFUSED_MONTHS_UFR] > 500);
}

void test_months_ufr(void)
{
    test_lengths();
    test_limits();
    test_rounding();
    test_ends();
    test_bytes();
}
