/* METHOD, The rounded working, in plain C, with a filter before the tests of the zero rates.
 *
 * Everything but the zero rates is plain.c's, with what it assumes and leaves out. The zero rates are searched in the engine's
 * way: each search halves, as in plain.c, and each test has the same outcome. Before the two searches of a term a step is
 * guessed, and bounds of 10^12 x^t at two or three steps near it decide most tests. Bounds at the tested step decide most of the
 * others. Only the tests that are left open take t years; bounds take one division, and at most 24 multiplications. The
 * caller says how years are taken: C with the filter takes those of plain.c, C with the ratio those of ratio.c. Nothing is
 * proved of it. */
#include "bench.h"

uint64_t filter_left_open;

static const uint64_t UNIT = 1 << 30;      /* powers of x count 2^-30 */
static const uint64_t FIVES = 244140625;   /* 5^12: 10^12 / 2^30 is 5^12 / 2^18 */
static const uint64_t GAP = 1000;          /* an upper result is at most this much above its lower result */

/* A step z is kept as the divisor 100,000 + z: x is 100,000 / (100,000 + z). z is -2,000 to 20,000. */
static const uint64_t FIRST = STEPS - 2000, LAST = STEPS + 20000;

/* ---------------------------------------------------------------- bounds */

static uint64_t product_down(uint64_t a, uint64_t b) { return a * b >> 30; }
static uint64_t product_up(uint64_t a, uint64_t b) { return (a * b + UNIT - 1) >> 30; }

/* Bounds of 10^12 x^t, by squaring and multiplying along the bits of t, from the highest. x^60 is at most 0.98^-60, below
 * 3.4, so 64 bits hold the square of 2^30 times it. */
static ginghamowl_bracket bounds_of(uint64_t divisor, int t)
{
    uint64_t x = UNIT * STEPS / divisor, lower = x, upper = x + 1;
    int bit = 6;
    while ((t >> bit & 1) == 0)
        bit--;
    while (--bit >= 0) {
        lower = product_down(lower, lower);
        upper = product_up(upper, upper);
        if (t >> bit & 1) {
            lower = product_down(lower, x);
            upper = product_up(upper, x + 1);
        }
    }
    return (ginghamowl_bracket){lower * FIVES >> 18, (upper * FIVES + (1 << 18) - 1) >> 18};
}

/* ---------------------------------------------------------------- tests */

/* A lower result is at most 10^12 x^t, and an upper result at least. The bounds decide where this and the gap between the
 * results are enough. */

/* Counts a test that the bounds leave open, and gives its step. */
static int64_t step_left_open(uint64_t divisor)
{
    filter_left_open++;
    return (int64_t)divisor - STEPS;
}

/* Whether the lower result is at least the upper factor. */
static bool lower_reaches(const struct years *years, uint64_t divisor, int t, uint64_t upper_factor)
{
    ginghamowl_bracket at = bounds_of(divisor, t);
    if (at.lower >= upper_factor + GAP)
        return true;
    if (at.upper < upper_factor)
        return false;
    return years->discounted_down(step_left_open(divisor), t) >= upper_factor;
}

/* Whether the upper result is above the lower factor. */
static bool upper_reaches(const struct years *years, uint64_t divisor, int t, uint64_t lower_factor)
{
    ginghamowl_bracket at = bounds_of(divisor, t);
    if (at.lower > lower_factor)
        return true;
    if (at.upper + GAP <= lower_factor)
        return false;
    return years->discounted_up(step_left_open(divisor), t) > lower_factor;
}

/* ---------------------------------------------------------------- known steps */

/* Divisors of the steps that are not decided, from low on and below high. Results fall as the step rises: those of all steps
 * below low reach the factor, and none from high on does. */
struct interval {
    uint64_t low, high;
};

/* The divisor of the lower rate of term t, or the one before it, by a mean: of t - 1 years at the divisor of term t - 1, and of
 * one year at the growth from the factor of term t - 1 to that of term t. A wrong guess costs time only. */
static uint64_t guess_of(int t, uint64_t divisor, uint64_t factor_before, uint64_t factor)
{
    uint64_t years = (uint64_t)t, mean = ((years - 1) * divisor + factor_before * STEPS / factor) / years;
    if (mean < FIRST)
        return FIRST;
    return mean > LAST - 2 ? LAST - 2 : mean;
}

/* What the bounds at one step decide in both searches. Bounds that leave the test of either end of the factor open decide
 * nothing. */
static struct interval known_at(uint64_t divisor, int t, ginghamowl_bracket factor)
{
    ginghamowl_bracket at = bounds_of(divisor, t);
    return (struct interval){at.lower >= factor.upper + GAP ? divisor + 1 : FIRST,
                             at.upper + GAP <= factor.lower ? divisor : LAST + 1};
}

/* The step after the guess is asked first. Mostly it reaches the factor, and then the step after it is asked, or it does not,
 * and then the guess itself. */
static struct interval known_near(uint64_t guess, int t, ginghamowl_bracket factor)
{
    struct interval known = known_at(guess + 1, t, factor);
    if (known.low == FIRST)
        known.low = known_at(guess, t, factor).low;
    if (known.high == LAST + 1)
        known.high = known_at(guess + 2, t, factor).high;
    return known;
}

/* ---------------------------------------------------------------- zero rates */

typedef bool test(const struct years *years, uint64_t divisor, int t, uint64_t factor);

/* The divisor of the first step that does not reach the factor, by halving. A test that is known needs no bounds. */
static uint64_t search(test reaches, const struct years *years, int t, uint64_t factor, struct interval known)
{
    struct interval left = {FIRST, LAST + 1};
    while (left.low < left.high) {
        uint64_t middle = (left.low + left.high) / 2;
        if (middle < known.low || (middle < known.high && reaches(years, middle, t, factor)))
            left.low = middle + 1;
        else
            left.high = middle;
    }
    return left.low;
}

void filter_rates(const struct years *years, const uint64_t *factors, int64_t *rates)
{
    uint64_t divisor = FIRST, factor_before = ONE;
    for (int t = 1; t <= LAST_TERM; t++) {
        ginghamowl_bracket factor = ends_of(factors, t);
        struct interval known = known_near(guess_of(t, divisor, factor_before, factor.lower), t, factor);
        divisor = search(lower_reaches, years, t, factor.upper, known) - 1;
        rates[GINGHAMOWL_LOWER(t)] = (int64_t)divisor - STEPS;
        rates[GINGHAMOWL_UPPER(t)] = (int64_t)search(upper_reaches, years, t, factor.lower, known) - STEPS;
        factor_before = factor.upper;
    }
}

ginghamowl_valuation filter_value(const struct years *years, const uint8_t *file, uint64_t *factors, int64_t *rates)
{
    struct fund fund;
    read_fund(file, &fund);
    plain_factors(years, &fund, 0, factors);
    filter_rates(years, factors, rates);
    return plain_money(years, &fund, factors);
}
