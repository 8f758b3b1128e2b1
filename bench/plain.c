/* METHOD, The rounded working, in plain C: what one would write without proofs, for speed.
 *
 * It assumes that the file is accepted. The benchmark only times such files, so the checks of the
 * thirteen refusals are left out; this favours plain C. Nothing is proved of it. That no product below
 * overflows follows from the limits (METHOD, The case file), and is told where it is not plain to see. */
#include "bench.h"

#include <math.h>

static const uint64_t CENT = 10000000000; /* euros times a factor, over this, are cents */

const uint64_t weights[LAST_MARKET_TERM + 1] = {
    [21] = 86,  186, 274, 351, 420, 481, 536, 584, 628, 666, 701, 732, 760, 785, 808, 828, 846, 863, 878, 891,
    903, 914, 923, 932, 940, 947, 954, 960, 965, 970, 974, 978, 982, 985, 988, 990, 993, 995, 997, 998};

/* ---------------------------------------------------------------- the case file */

static uint64_t number(const uint8_t **at, int bytes)
{
    uint64_t value = 0;
    while (bytes-- > 0)
        value = value << 8 | *(*at)++;
    return value;
}

static void numbers(const uint8_t **at, uint64_t *out, uint64_t count, int bytes)
{
    for (uint64_t i = 0; i < count; i++)
        out[i] = number(at, bytes);
}

static void read_days(const uint8_t **at, struct fund *fund, bool four_bytes)
{
    uint64_t n = number(at, 1);
    fund->per_step = four_bytes ? 100 * n : n;
    for (int t = 0; t <= LAST_MARKET_TERM; t++)
        fund->sum[t] = 0;
    for (uint64_t day = 0; day < n; day++)
        for (int t = 1; t <= LAST_MARKET_TERM; t++)
            fund->sum[t] += four_bytes ? (int32_t)number(at, 4) : (int16_t)number(at, 2);
}

void read_fund(const uint8_t *file, struct fund *fund)
{
    const uint8_t *at = file;
    uint64_t map = number(&at, 2);
    fund->ufr = map & 1 ? number(&at, 2) : 4200;
    if (map & 2)
        read_days(&at, fund, false);
    fund->m = number(&at, 1);
    numbers(&at, fund->pension, fund->m, 4);
    fund->k = map & 8 ? number(&at, 1) : 0;
    numbers(&at, fund->bonds, fund->k, 4);
    for (int i = 0; i < AMOUNTS; i++)
        fund->amount[i] = map & 16 ? number(&at, 8) : 0;
    numbers(&at, fund->shock, EQUITY_CORRELATION, 2);
    fund->heads = number(&at, 4);
    fund->pension_age = number(&at, 2);
    fund->mean_age = number(&at, 2);
    if (map & 128)
        read_days(&at, fund, true);
    fund->shock[EQUITY_CORRELATION] = map & 256 ? number(&at, 2) : GINGHAMOWL_DEFAULT_EQUITY_CORRELATION;
}

/* ---------------------------------------------------------------- years */

static uint64_t ceiling(uint64_t a, uint64_t b) { return (a + b - 1) / b; }
static uint64_t wide_floor(wide a, wide b) { return (uint64_t)(a / b); }
static uint64_t wide_ceiling(wide a, wide b) { return (uint64_t)((a + b - 1) / b); }

/* x times a / b, once. x is at most `most`: where 64 bits hold the product of that, they hold the products of both ends. */
static ginghamowl_bracket year(ginghamowl_bracket x, uint64_t a, uint64_t b, uint64_t most)
{
    if ((wide)most * a + b <= UINT64_MAX)
        return (ginghamowl_bracket){x.lower * a / b, ceiling(x.upper * a, b)};
    return (ginghamowl_bracket){wide_floor((wide)x.lower * a, b), wide_ceiling((wide)x.upper * a, b)};
}

static ginghamowl_bracket divided_growth(uint64_t a, uint64_t b, int count, uint64_t most)
{
    ginghamowl_bracket growth = {ONE, ONE};
    for (int i = 0; i < count; i++)
        growth = year(growth, a, b, most);
    return growth;
}

/* The old factor over the growth, crosswise. Both count 10^-12, so 64 bits never hold the product. */
static ginghamowl_bracket next_factor(ginghamowl_bracket factor, ginghamowl_bracket growth)
{
    return (ginghamowl_bracket){wide_floor((wide)factor.lower * ONE, growth.upper),
                                wide_ceiling((wide)factor.upper * ONE, growth.lower)};
}

static uint64_t ufr_growth(uint64_t ufr) { return ONE + ufr * 10000000; }

static void divided_past_market(uint64_t ufr, uint64_t *factors)
{
    ginghamowl_bracket growth = {ufr_growth(ufr), ufr_growth(ufr)};
    for (int t = LAST_MARKET_TERM + 1; t <= LAST_TERM; t++)
        set_ends(factors, t, next_factor(ends_of(factors, t - 1), growth));
}

/* Results are at most 0.98^-120 x 10^12, below 1.2 x 10^13, so 64 bits hold them 100,000 times. */
static uint64_t discounted_down(int64_t z, int t)
{
    uint64_t result = ONE, divisor = (uint64_t)(STEPS + z);
    for (int i = 0; i < t; i++)
        result = result * STEPS / divisor;
    return result;
}

static uint64_t discounted_up(int64_t z, int t)
{
    uint64_t result = ONE, divisor = (uint64_t)(STEPS + z);
    for (int i = 0; i < t; i++)
        result = ceiling(result * STEPS, divisor);
    return result;
}

const struct years plain_years = {divided_growth, divided_past_market, discounted_down, discounted_up};

/* ---------------------------------------------------------------- factors */

/* t times x N / P(t): a factor up to term 20, and that of a bond at every term. P(t) is at least 0.98 x N, so it is below
 * 1.5 up to term 20 and below 3.4 up to 60; where P(t) is at least N, factors do not rise. Of two-byte rates N is at most
 * 7,000,000: 64 bits hold 1.5 x 10^12 times that, but not 3.4 x 10^12 times. Of four-byte rates N is 100 times as large. */
static ginghamowl_bracket unadjusted_factor(const struct years *years, const struct fund *fund, int64_t shift, int t)
{
    uint64_t n = n_of(fund), p = p_of(fund, shift, t);
    uint64_t most = p >= n ? ONE : t <= LAST_UNWEIGHED_TERM ? 15 * ONE / 10 : 34 * ONE / 10;
    return years->growth(n, p, t, most);
}

/* The growth of year t, weighed with the UFR. Refusal 6 keeps growths below 1.2. Of two-byte rates P(t) is below
 * 8,000,000, and 64 bits hold 1.2 x 10^12 times that; of four-byte rates it is 100 times as large. The last year is over N,
 * and alone: every program in C divides there, since a ratio that serves one year saves nothing. */
static ginghamowl_bracket weighed_growth(const struct years *years, const struct fund *fund, int64_t shift, int t)
{
    uint64_t p = p_of(fund, shift, t), before = p_of(fund, shift, t - 1), most = 12 * ONE / 10;
    uint64_t weight = weights[t], of_ufr = weight * ufr_growth(fund->ufr);
    ginghamowl_bracket growth = year(years->growth(p, before, t - 1, most), p, n_of(fund), most);
    return (ginghamowl_bracket){((1000 - weight) * growth.lower + of_ufr) / 1000,
                                ceiling((1000 - weight) * growth.upper + of_ufr, 1000)};
}

void plain_factors(const struct years *years, const struct fund *fund, int64_t shift, uint64_t factors[GINGHAMOWL_ENTRIES])
{
    for (int t = 1; t <= LAST_UNWEIGHED_TERM; t++)
        set_ends(factors, t, unadjusted_factor(years, fund, shift, t));
    for (int t = LAST_UNWEIGHED_TERM + 1; t <= LAST_MARKET_TERM; t++)
        set_ends(factors, t, next_factor(ends_of(factors, t - 1), weighed_growth(years, fund, shift, t)));
    years->past_market(fund->ufr, factors);
}

/* Bonds are valued off the adjusted curve. Up to term 20 the adjusted factors are theirs too. */
void plain_bond_factors(const struct years *years, const struct fund *fund, int64_t shift, const uint64_t *factors,
                        uint64_t bond_factors[BOND_ENTRIES])
{
    for (int t = 1; t <= (int)fund->k; t++)
        set_ends(bond_factors, t, t <= LAST_UNWEIGHED_TERM ? ends_of(factors, t) : unadjusted_factor(years, fund, shift, t));
}

/* ---------------------------------------------------------------- zero rates */

/* The largest z whose lower result is at least the upper factor, by halving. */
static int64_t lower_rate(uint64_t upper_factor, int t)
{
    int64_t good = -2000, bad = 20001;
    while (bad - good > 1) {
        int64_t middle = (good + bad) / 2;
        if (discounted_down(middle, t) >= upper_factor)
            good = middle;
        else
            bad = middle;
    }
    return good;
}

/* The smallest z whose upper result is at most the lower factor, by halving. */
static int64_t upper_rate(uint64_t lower_factor, int t)
{
    int64_t bad = -2001, good = 20000;
    while (good - bad > 1) {
        int64_t middle = (good + bad) / 2;
        if (discounted_up(middle, t) <= lower_factor)
            good = middle;
        else
            bad = middle;
    }
    return good;
}

void plain_rates(const uint64_t *factors, int64_t *rates)
{
    for (int t = 1; t <= LAST_TERM; t++) {
        rates[GINGHAMOWL_LOWER(t)] = lower_rate(factors[GINGHAMOWL_UPPER(t)], t);
        rates[GINGHAMOWL_UPPER(t)] = upper_rate(factors[GINGHAMOWL_LOWER(t)], t);
    }
}

/* ---------------------------------------------------------------- money */

/* A flow is at most 10^8 euros and a factor below 10^13, but their product passes 64 bits. */
static ginghamowl_bracket worth(const uint64_t *flows, uint64_t count, const uint64_t *factors)
{
    ginghamowl_bracket sum = {0, 0};
    for (uint64_t i = 0; i < count; i++) {
        sum.lower += wide_floor((wide)flows[i] * factors[2 * i], CENT);
        sum.upper += wide_ceiling((wide)flows[i] * factors[2 * i + 1], CENT);
    }
    return sum;
}

static ginghamowl_bracket bonds_worth(const struct years *years, const struct fund *fund, int64_t shift, const uint64_t *factors)
{
    uint64_t bond_factors[BOND_ENTRIES];
    plain_bond_factors(years, fund, shift, factors, bond_factors);
    return worth(fund->bonds, fund->k, bond_factors);
}

static uint64_t largest(int64_t a, int64_t b)
{
    int64_t larger = a > b ? a : b;
    return larger > 0 ? (uint64_t)larger : 0;
}

/* The larger fall of B - L; differences pair a lower with an upper end. */
static ginghamowl_bracket interest_loss(const struct years *years, const struct fund *fund, ginghamowl_bracket l,
                                        ginghamowl_bracket b)
{
    int64_t lower[CURVES], upper[CURVES];
    for (int curve = UP; curve <= DOWN; curve++) {
        uint64_t factors[GINGHAMOWL_ENTRIES];
        plain_factors(years, fund, shift_of(fund, curve), factors);
        ginghamowl_bracket shifted_l = worth(fund->pension, fund->m, factors);
        ginghamowl_bracket shifted_b = bonds_worth(years, fund, shift_of(fund, curve), factors);
        lower[curve] = (int64_t)(b.lower - l.upper - (shifted_b.upper - shifted_l.lower));
        upper[curve] = (int64_t)(b.upper - l.lower - (shifted_b.lower - shifted_l.upper));
    }
    return (ginghamowl_bracket){largest(lower[UP], lower[DOWN]), largest(upper[UP], upper[DOWN])};
}

static ginghamowl_bracket quotient(wide a, uint64_t b)
{
    return (ginghamowl_bracket){wide_floor(a, b), wide_ceiling(a, b)};
}

/* The estimate of sqrtl may be off by one or two; the loops mend it. Roots here are below 2^63. */
static uint64_t root_floor(wide x)
{
    uint64_t root = (uint64_t)sqrtl((long double)x);
    while ((wide)root * root > x)
        root--;
    while ((wide)(root + 1) * (root + 1) <= x)
        root++;
    return root;
}

static uint64_t root_ceiling(wide x)
{
    uint64_t root = root_floor(x);
    return root + ((wide)root * root < x);
}

/* The floor of a root is the root of the floor, so the quotient may be rounded first; likewise upwards. */
static ginghamowl_bracket mortality_loss(const struct fund *fund, ginghamowl_bracket l)
{
    uint64_t gap = fund->pension_age > fund->mean_age ? fund->pension_age - fund->mean_age : 0;
    wide share = fund->heads * (320 + 3 * gap) * (320 + 3 * gap) + 92160000;
    wide divisor = (wide)256000000 * fund->heads;
    return (ginghamowl_bracket){root_floor((wide)l.lower * l.lower * share / divisor),
                                root_ceiling(((wide)l.upper * l.upper * share + divisor - 1) / divisor)};
}

static wide square(uint64_t x) { return (wide)x * x; }

static ginghamowl_bracket root_buffer(const ginghamowl_figures *f, uint64_t correlation)
{
    wide lower = square(f->s1.lower) + square(f->s2.lower) + square(f->s3.lower) + square(f->s4.lower) +
                 square(f->s5.lower) + square(f->s6.lower);
    wide upper = square(f->s1.upper) + square(f->s2.upper) + square(f->s3.upper) + square(f->s4.upper) +
                 square(f->s5.upper) + square(f->s6.upper);
    lower = 1000 * lower + (wide)(2 * correlation) * f->s1.lower * f->s2.lower;
    upper = 1000 * upper + (wide)(2 * correlation) * f->s1.upper * f->s2.upper;
    return (ginghamowl_bracket){root_floor(lower / 1000), root_ceiling((upper + 999) / 1000)};
}

static uint8_t verdict_of(const ginghamowl_figures *f)
{
    if (20 * f->a.upper < 21 * f->l.lower)
        return GINGHAMOWL_DEKKINGSTEKORT;
    if (20 * f->a.lower >= 21 * f->l.upper) {
        if (f->a.upper < f->l.lower + f->s.lower)
            return GINGHAMOWL_RESERVETEKORT;
        if (f->a.lower >= f->l.upper + f->s.upper)
            return GINGHAMOWL_VRIJ_VERMOGEN;
    }
    return GINGHAMOWL_ONBESLIST;
}

/* The root of the squares of the four losses and twice the correlation times each pair's product; a euro's thousandth is a tenth of a
 * cent. */
static ginghamowl_bracket equity_loss(const uint64_t *amount, const uint64_t *shock)
{
    const uint64_t losses[] = {amount[MATURE] * shock[MATURE_FALL], amount[EMERGING] * shock[EMERGING_FALL],
                               amount[PRIVATE] * shock[PRIVATE_FALL], amount[PROPERTY] * shock[PROPERTY_FALL]};
    wide squares = 0, pairs = 0;
    for (int i = 0; i < 4; i++) {
        squares += square(losses[i]);
        for (int j = 0; j < i; j++)
            pairs += (wide)losses[i] * losses[j];
    }
    wide x = 1000 * squares + 2 * shock[EQUITY_CORRELATION] * pairs;
    return (ginghamowl_bracket){root_floor(x / 100000), root_ceiling((x + 99999) / 100000)};
}

/* The losses of the market values. */
static void market_losses(const struct fund *fund, ginghamowl_figures *f)
{
    const uint64_t *amount = fund->amount, *shock = fund->shock;
    f->s2 = equity_loss(amount, shock);
    f->s3 = quotient((wide)amount[CURRENCY] * shock[CURRENCY_FALL], 10);
    f->s4 = quotient((wide)amount[COMMODITIES] * shock[COMMODITIES_FALL], 10);
    f->s5 = quotient((wide)amount[CREDIT] * (shock[DURATION] * shock[SPREAD] * shock[SPREAD_RISE]), 10000000);
}

ginghamowl_valuation plain_money(const struct years *years, const struct fund *fund, const uint64_t *factors)
{
    ginghamowl_valuation v = {.refusal = GINGHAMOWL_ACCEPTED};
    ginghamowl_figures *f = &v.figures;
    f->l = worth(fund->pension, fund->m, factors);
    f->b = bonds_worth(years, fund, 0, factors);
    f->a = f->b;
    for (int i = 0; i < AMOUNTS; i++) {
        f->a.lower += i == CURRENCY ? 0 : 100 * fund->amount[i];
        f->a.upper += i == CURRENCY ? 0 : 100 * fund->amount[i];
    }
    f->s1 = interest_loss(years, fund, f->l, f->b);
    market_losses(fund, f);
    f->s6 = mortality_loss(fund, f->l);
    f->s = root_buffer(f, fund->shock[CORRELATION]);
    v.verdict = verdict_of(f);
    return v;
}

ginghamowl_valuation plain_value(const uint8_t *file, uint64_t *factors, int64_t *rates)
{
    struct fund fund;
    read_fund(file, &fund);
    plain_factors(&plain_years, &fund, 0, factors);
    plain_rates(factors, rates);
    return plain_money(&plain_years, &fund, factors);
}
