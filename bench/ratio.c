/* The years of the rounded working by a ratio, as the engine takes them: one division makes it, and no year takes one.
 *
 * With filter.c's search of the zero rates, and with plain.c for all else, they make C with the ratio: a whole
 * valuation that goes the engine's way, without the checks of the file, compiled by gcc. Nothing is proved of it.
 *
 * A ratio is a / b in units of 2^-80, rounded down. Multiplied by it, x falls short of x times a / b by less than x /
 * 2^80; with one unit more it exceeds that by at most as much. Where x times b is below 2^80 both are less than 1 / b,
 * and x times a / b is whole or at least 1 / b away from the next whole number on either side. So rounding down with
 * one unit more, and rounding up without it, give what the quotients give.
 *
 * x is below 2^44: results of tests are at most 0.98^-120 x 10^12, and factors and growths are smaller. b is below
 * 2^30: N and P(t) of four-byte rates are below 800,000,000. And a / b is below 2, so that 128 bits hold every
 * product. */
#include "bench.h"

enum { PLACES = 80 };

static wide units_of(uint64_t a, uint64_t b) { return ((wide)a << PLACES) / b; }
static uint64_t year_down(uint64_t x, wide units) { return (uint64_t)(x * (units + 1) >> PLACES); }
static uint64_t year_up(uint64_t x, wide units) { return (uint64_t)((x * units + ((wide)1 << PLACES) - 1) >> PLACES); }

static ginghamowl_bracket year(ginghamowl_bracket x, wide units)
{
    return (ginghamowl_bracket){year_down(x.lower, units), year_up(x.upper, units)};
}

static ginghamowl_bracket multiplied_growth(uint64_t a, uint64_t b, int count, uint64_t most)
{
    (void)most; /* every product is wide */
    wide units = units_of(a, b);
    ginghamowl_bracket growth = {ONE, ONE};
    for (int i = 0; i < count; i++)
        growth = year(growth, units);
    return growth;
}

/* 100,000 over 100,000 + UFR is 10^12 over the growth of the UFR. */
static void multiplied_past_market(uint64_t ufr, uint64_t *factors)
{
    wide units = units_of(STEPS, STEPS + ufr);
    for (int t = LAST_MARKET_TERM + 1; t <= LAST_TERM; t++)
        set_ends(factors, t, year(ends_of(factors, t - 1), units));
}

static uint64_t discounted_down(int64_t z, int t)
{
    wide units = units_of(STEPS, (uint64_t)(STEPS + z));
    uint64_t result = ONE;
    for (int i = 0; i < t; i++)
        result = year_down(result, units);
    return result;
}

static uint64_t discounted_up(int64_t z, int t)
{
    wide units = units_of(STEPS, (uint64_t)(STEPS + z));
    uint64_t result = ONE;
    for (int i = 0; i < t; i++)
        result = year_up(result, units);
    return result;
}

const struct years ratio_years = {multiplied_growth, multiplied_past_market, discounted_down, discounted_up};
