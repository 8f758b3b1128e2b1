/* What the programs of the benchmark share. METHOD is docs/METHOD.md, cited with the name of a section. */
#ifndef BENCH_H
#define BENCH_H

#include <stdbool.h>
#include <stddef.h>
#include <stdint.h>

#include "ginghamowl.h"

__extension__ typedef unsigned __int128 wide;

enum { LAST_TERM = GINGHAMOWL_TERMS, LAST_MARKET_TERM = 60, LAST_UNWEIGHED_TERM = 20, STEPS = 100000 };
enum { BOND_ENTRIES = 2 * LAST_MARKET_TERM }; /* lower, upper, term by term, as in a factor buffer */
static const uint64_t ONE = 1000000000000;    /* factors and growths count 10^-12 */

/* Numbers in the order of the case file. */
enum { MATURE, EMERGING, PRIVATE, PROPERTY, COMMODITIES, CREDIT, CASH, CURRENCY, AMOUNTS };
enum {
    UP_SHIFT, DOWN_SHIFT, MATURE_FALL, EMERGING_FALL, PRIVATE_FALL, PROPERTY_FALL, CURRENCY_FALL, COMMODITIES_FALL,
    SPREAD_RISE, CORRELATION, SPREAD, DURATION, EQUITY_CORRELATION, SHOCKS
};

/* What an accepted file says: UFR in steps, money in euros, ages in months. Rates of two bytes are in steps, those of
 * four bytes in hundredths of a step. */
struct fund {
    uint64_t ufr, m, k;
    uint64_t per_step; /* what a step on every day adds to a sum of rates: n, or 100 x n of four-byte rates */
    int64_t sum[LAST_MARKET_TERM + 1]; /* s(t), the sum of term t's rates over the days */
    uint64_t pension[120], bonds[60], amount[AMOUNTS], shock[SHOCKS];
    uint64_t heads, pension_age, mean_age;
};

/* The base, the up and the down curve, each with its shift in steps. */
enum { BASE, UP, DOWN, CURVES };
static inline int64_t shift_of(const struct fund *fund, int curve)
{
    return curve == UP ? (int64_t)fund->shock[UP_SHIFT] : curve == DOWN ? -(int64_t)fund->shock[DOWN_SHIFT] : 0;
}

/* What a rate of 1 on every day adds to a sum of rates. */
static inline uint64_t n_of(const struct fund *fund) { return STEPS * fund->per_step; }

/* N + s(t), with the shift added on every day: P(t) (METHOD, The rounded working). P(t) / N is 1 plus the mean rate. */
static inline uint64_t p_of(const struct fund *fund, int64_t shift, int t)
{
    return (uint64_t)((int64_t)n_of(fund) + fund->sum[t] + (int64_t)fund->per_step * shift);
}

/* The ends of term t in a factor buffer. */
static inline ginghamowl_bracket ends_of(const uint64_t *factors, int t)
{
    return (ginghamowl_bracket){factors[GINGHAMOWL_LOWER(t)], factors[GINGHAMOWL_UPPER(t)]};
}

static inline void set_ends(uint64_t *factors, int t, ginghamowl_bracket ends)
{
    factors[GINGHAMOWL_LOWER(t)] = ends.lower;
    factors[GINGHAMOWL_UPPER(t)] = ends.upper;
}

extern const uint64_t weights[LAST_MARKET_TERM + 1]; /* in thousandths, of terms 21 to 60 */

/* How years by one fraction are taken, each of them rounded: plain.c divides in each, ratio.c multiplies by a ratio that
 * it makes once. All else of the rounded working is the same for both. */
struct years {
    /* 10^12, taken times a / b this many times. No result is above `most`, which tells how long the products get. */
    ginghamowl_bracket (*growth)(uint64_t a, uint64_t b, int count, uint64_t most);
    void (*past_market)(uint64_t ufr, uint64_t *factors); /* the factors of terms 61 to 120, from that of term 60 */
    uint64_t (*discounted_down)(int64_t z, int t); /* the lower result of a test of step z: 10^12, discounted t times */
    uint64_t (*discounted_up)(int64_t z, int t);   /* and the upper one */
};
extern const struct years plain_years, ratio_years; /* of plain.c and ratio.c */

/* plain.c: the rounded working. */
void read_fund(const uint8_t *file, struct fund *fund);
void plain_factors(const struct years *years, const struct fund *fund, int64_t shift, uint64_t factors[GINGHAMOWL_ENTRIES]);
void plain_bond_factors(const struct years *years, const struct fund *fund, int64_t shift, const uint64_t *factors,
                        uint64_t bond_factors[BOND_ENTRIES]); /* of terms 1 to k; takes the factors of the same curve */
void plain_rates(const uint64_t *factors, int64_t *rates);
ginghamowl_valuation plain_money(const struct years *years, const struct fund *fund, const uint64_t *factors);
ginghamowl_valuation plain_value(const uint8_t *file, uint64_t *factors, int64_t *rates);

/* filter.c: the same, but the zero rates are searched in the engine's way. The tests that the filter leaves open, which take t
 * years, are counted. With ratio.c's years it is the whole valuation in the engine's way. */
extern uint64_t filter_left_open;
void filter_rates(const struct years *years, const uint64_t *factors, int64_t *rates);
ginghamowl_valuation filter_value(const struct years *years, const uint8_t *file, uint64_t *factors, int64_t *rates);

/* The brackets of a curve's factors, adjusted and of bonds. */
struct brackets {
    uint64_t factors[GINGHAMOWL_ENTRIES], bonds[BOND_ENTRIES];
};

/* gmp.c and arb.c: `run` does the work once; `meets` does it once more and says whether every result
 * meets its bracket, the factors of three curves and the rates of the base curve. */
void gmp_run(const uint8_t *file);
bool gmp_meets(const uint8_t *file, const struct brackets brackets[CURVES]);
void arb_run(const uint8_t *file);
bool arb_meets(const uint8_t *file, const struct brackets brackets[CURVES], const int64_t *rates);

#endif
