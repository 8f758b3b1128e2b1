/* The factors of three curves, those of the bonds and the zero rates of the base curve as balls of 64 bits, by Arb: what one
 * would use for guaranteed digits without a proof of one's own program. Money and verdict are left out,
 * so this does less than a valuation. */
#include "bench.h"

#include <arb.h>

enum { BITS = 64 };

/* 1 + R(t) = P(t) / N. */
static void set_mean(arb_t mean, const struct fund *fund, int64_t shift, int t)
{
    arb_set_ui(mean, p_of(fund, shift, t));
    arb_div_ui(mean, mean, n_of(fund), BITS);
}

/* (N / P(t))^t: a factor up to term 20, where the growths multiply to (1 + R(t))^t, and that of a bond at every term. */
static void set_unadjusted(arb_t factor, const struct fund *fund, int64_t shift, int t)
{
    set_mean(factor, fund, shift, t);
    arb_pow_ui(factor, factor, (ulong)t, BITS);
    arb_inv(factor, factor, BITS);
}

/* (1 - w) x G(t) + w x (1 + UFR), with G(t) = (1 + R(t))^t / (1 + R(t-1))^(t-1). */
static void set_growth(arb_t growth, const struct fund *fund, int64_t shift, int t, const arb_t ufr_growth)
{
    arb_t part;
    arb_init(part);
    set_mean(growth, fund, shift, t);
    arb_pow_ui(growth, growth, (ulong)t, BITS);
    set_mean(part, fund, shift, t - 1);
    arb_pow_ui(part, part, (ulong)t - 1, BITS);
    arb_div(growth, growth, part, BITS);
    arb_mul_ui(growth, growth, 1000 - weights[t], BITS);
    arb_addmul_ui(growth, ufr_growth, weights[t], BITS);
    arb_div_ui(growth, growth, 1000, BITS);
    arb_clear(part);
}

/* Places 1 to 120. */
static void ball_factors(const struct fund *fund, int64_t shift, arb_ptr factors)
{
    arb_t growth, ufr_growth;
    arb_init(growth);
    arb_init(ufr_growth);
    arb_set_ui(ufr_growth, STEPS + fund->ufr);
    arb_div_ui(ufr_growth, ufr_growth, STEPS, BITS);
    for (int t = 1; t <= LAST_TERM; t++) {
        if (t <= LAST_UNWEIGHED_TERM) {
            set_unadjusted(factors + t, fund, shift, t);
        } else if (t <= LAST_MARKET_TERM) {
            set_growth(growth, fund, shift, t, ufr_growth);
            arb_div(factors + t, factors + t - 1, growth, BITS);
        } else {
            arb_div(factors + t, factors + t - 1, ufr_growth, BITS);
        }
    }
    arb_clear(growth);
    arb_clear(ufr_growth);
}

/* The factors of the bonds past term 20. Up to 20 they are those above. */
static void ball_bond_factors(const struct fund *fund, int64_t shift, arb_ptr factors)
{
    for (int t = LAST_UNWEIGHED_TERM + 1; t <= (int)fund->k; t++)
        set_unadjusted(factors + t, fund, shift, t);
}

/* factor^(-1/t) - 1. */
static void ball_rates(arb_srcptr factors, arb_ptr rates)
{
    for (int t = 1; t <= LAST_TERM; t++) {
        arb_inv(rates + t, factors + t, BITS);
        arb_root_ui(rates + t, rates + t, (ulong)t, BITS);
        arb_sub_ui(rates + t, rates + t, 1, BITS);
    }
}

/* Whether the ball, times the unit, meets the bracket; a ball of radius above 1/2 would say nothing. */
static bool meets_bracket(const arb_t ball, ulong unit, int64_t lower, int64_t upper)
{
    arb_t scaled, end;
    arb_init(scaled);
    arb_init(end);
    arb_mul_ui(scaled, ball, unit, BITS);
    bool meets = mag_cmp_2exp_si(arb_radref(scaled), -1) <= 0;
    arb_set_si(end, lower);
    meets = meets && !arb_lt(scaled, end);
    arb_set_si(end, upper);
    meets = meets && !arb_gt(scaled, end);
    arb_clear(scaled);
    arb_clear(end);
    return meets;
}

static bool factors_meet(arb_srcptr factors, int first, int last, const uint64_t *brackets)
{
    bool meets = true;
    for (int t = first; t <= last; t++)
        meets = meets && meets_bracket(factors + t, 1000000000000, (int64_t)brackets[GINGHAMOWL_LOWER(t)],
                                       (int64_t)brackets[GINGHAMOWL_UPPER(t)]);
    return meets;
}

static bool rates_meet(arb_srcptr balls, const int64_t *rates)
{
    bool meets = true;
    for (int t = 1; t <= LAST_TERM; t++)
        meets = meets &&
                meets_bracket(balls + t, STEPS, rates[GINGHAMOWL_LOWER(t)], rates[GINGHAMOWL_UPPER(t)]);
    return meets;
}

/* Without brackets it only computes. */
static bool three_curves(const uint8_t *file, const struct brackets *brackets, const int64_t *rates)
{
    struct fund fund;
    arb_ptr factors = _arb_vec_init(LAST_TERM + 1), bond_factors = _arb_vec_init(LAST_MARKET_TERM + 1);
    arb_ptr balls = _arb_vec_init(LAST_TERM + 1);
    bool meets = true;
    read_fund(file, &fund);
    for (int curve = BASE; curve < CURVES; curve++) {
        ball_factors(&fund, shift_of(&fund, curve), factors);
        ball_bond_factors(&fund, shift_of(&fund, curve), bond_factors);
        if (curve == BASE)
            ball_rates(factors, balls);
        if (brackets)
            meets = meets && factors_meet(factors, 1, LAST_TERM, brackets[curve].factors) &&
                    factors_meet(bond_factors, LAST_UNWEIGHED_TERM + 1, (int)fund.k, brackets[curve].bonds);
    }
    if (brackets)
        meets = meets && rates_meet(balls, rates);
    _arb_vec_clear(factors, LAST_TERM + 1);
    _arb_vec_clear(bond_factors, LAST_MARKET_TERM + 1);
    _arb_vec_clear(balls, LAST_TERM + 1);
    return meets;
}

void arb_run(const uint8_t *file) { three_curves(file, NULL, NULL); }

bool arb_meets(const uint8_t *file, const struct brackets brackets[CURVES], const int64_t *rates)
{
    return three_curves(file, brackets, rates);
}
