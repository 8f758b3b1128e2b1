/* The exact factors of terms 1 to 120 of the three curves, and those of the bonds, as GMP rationals.
 *
 * Every exact factor is a fraction, so nothing is left out here. Zero rates, S6 and S are roots, which
 * fractions do not hold; neither they nor the sums are computed. So this does less than a valuation. */
#include "bench.h"

#include <gmp.h>

/* 1 + R(t) = P(t) / N, in lowest terms. */
static void set_mean(mpq_t mean, const struct fund *fund, int64_t shift, int t)
{
    mpq_set_ui(mean, p_of(fund, shift, t), n_of(fund));
    mpq_canonicalize(mean);
}

/* A power of a fraction in lowest terms is in lowest terms. */
static void power(mpq_t out, const mpq_t base, unsigned long exponent)
{
    mpz_pow_ui(mpq_numref(out), mpq_numref(base), exponent);
    mpz_pow_ui(mpq_denref(out), mpq_denref(base), exponent);
}

/* (N / P(t))^t: a factor up to term 20, where the growths multiply to (1 + R(t))^t, and that of a bond at every term. */
static void set_unadjusted(mpq_t factor, const struct fund *fund, int64_t shift, int t)
{
    mpq_t mean;
    mpq_init(mean);
    set_mean(mean, fund, shift, t);
    power(factor, mean, (unsigned long)t);
    mpq_inv(factor, factor);
    mpq_clear(mean);
}

/* (1 - w) x G(t) + w x (1 + UFR), with G(t) = (1 + R(t))^t / (1 + R(t-1))^(t-1). */
static void set_growth(mpq_t growth, const struct fund *fund, int64_t shift, int t, const mpq_t ufr_growth)
{
    mpq_t mean, part;
    mpq_inits(mean, part, NULL);
    set_mean(mean, fund, shift, t);
    power(growth, mean, (unsigned long)t);
    set_mean(mean, fund, shift, t - 1);
    power(part, mean, (unsigned long)t - 1);
    mpq_div(growth, growth, part);
    mpq_set_ui(part, 1000 - weights[t], 1000);
    mpq_canonicalize(part);
    mpq_mul(growth, growth, part);
    mpq_set_ui(part, weights[t], 1000);
    mpq_canonicalize(part);
    mpq_mul(part, part, ufr_growth);
    mpq_add(growth, growth, part);
    mpq_clears(mean, part, NULL);
}

/* Factors 1 to 120 at the places 1 to 120. */
static void exact_factors(const struct fund *fund, int64_t shift, mpq_t factors[LAST_TERM + 1])
{
    mpq_t growth, ufr_growth;
    mpq_inits(growth, ufr_growth, NULL);
    mpq_set_ui(ufr_growth, STEPS + fund->ufr, STEPS);
    mpq_canonicalize(ufr_growth);
    for (int t = 1; t <= LAST_TERM; t++) {
        if (t <= LAST_UNWEIGHED_TERM) {
            set_unadjusted(factors[t], fund, shift, t);
        } else if (t <= LAST_MARKET_TERM) {
            set_growth(growth, fund, shift, t, ufr_growth);
            mpq_div(factors[t], factors[t - 1], growth);
        } else {
            mpq_div(factors[t], factors[t - 1], ufr_growth);
        }
    }
    mpq_clears(growth, ufr_growth, NULL);
}

/* The factors of the bonds past term 20. Up to 20 they are those above. */
static void exact_bond_factors(const struct fund *fund, int64_t shift, mpq_t factors[LAST_MARKET_TERM + 1])
{
    for (int t = LAST_UNWEIGHED_TERM + 1; t <= (int)fund->k; t++)
        set_unadjusted(factors[t], fund, shift, t);
}

/* lower <= 10^12 x factor <= upper, multiplied out. */
static bool within(const mpq_t factor, uint64_t lower, uint64_t upper)
{
    mpz_t scaled, end;
    mpz_inits(scaled, end, NULL);
    mpz_mul_ui(scaled, mpq_numref(factor), 1000000000000);
    mpz_mul_ui(end, mpq_denref(factor), lower);
    bool holds = mpz_cmp(end, scaled) <= 0;
    mpz_mul_ui(end, mpq_denref(factor), upper);
    holds = holds && mpz_cmp(scaled, end) <= 0;
    mpz_clears(scaled, end, NULL);
    return holds;
}

static bool all_within(mpq_t *factors, int first, int last, const uint64_t *brackets)
{
    bool holds = true;
    for (int t = first; t <= last; t++)
        holds = holds && within(factors[t], brackets[GINGHAMOWL_LOWER(t)], brackets[GINGHAMOWL_UPPER(t)]);
    return holds;
}

/* Without brackets it only computes. */
static bool three_curves(const uint8_t *file, const struct brackets *brackets)
{
    struct fund fund;
    mpq_t factors[LAST_TERM + 1], bond_factors[LAST_MARKET_TERM + 1];
    bool meets = true;
    read_fund(file, &fund);
    for (int t = 0; t <= LAST_TERM; t++)
        mpq_init(factors[t]);
    for (int t = 0; t <= LAST_MARKET_TERM; t++)
        mpq_init(bond_factors[t]);
    for (int curve = BASE; curve < CURVES; curve++) {
        exact_factors(&fund, shift_of(&fund, curve), factors);
        exact_bond_factors(&fund, shift_of(&fund, curve), bond_factors);
        if (brackets)
            meets = meets && all_within(factors, 1, LAST_TERM, brackets[curve].factors) &&
                    all_within(bond_factors, LAST_UNWEIGHED_TERM + 1, (int)fund.k, brackets[curve].bonds);
    }
    for (int t = 0; t <= LAST_TERM; t++)
        mpq_clear(factors[t]);
    for (int t = 0; t <= LAST_MARKET_TERM; t++)
        mpq_clear(bond_factors[t]);
    return meets;
}

void gmp_run(const uint8_t *file) { three_curves(file, NULL); }

bool gmp_meets(const uint8_t *file, const struct brackets brackets[CURVES]) { return three_curves(file, brackets); }
