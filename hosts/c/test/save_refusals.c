/* Cases that are not saved: each number at its limits and past them, and which refusal comes first. */
#include "saving.h"

/* A number of the case passes at its limits, and not beyond them, nor where a cut to fewer bytes would let it
 * pass. */
static void test_limit(const held_case *c, uint64_t *number, uint64_t least, uint64_t most, uint8_t refusal)
{
    uint64_t before = *number;
    unsigned bits;

    *number = least;
    saves(c);
    *number = most;
    saves(c);
    *number = most + 1;
    saves_not(c, refusal);
    *number = least - 1; /* the largest of all where the least is 0 */
    saves_not(c, refusal);
    for (bits = 8; bits < 64; bits += 8) {
        *number = ((uint64_t)1 << bits) + least;
        if (*number > most)
            saves_not(c, refusal);
    }
    *number = before;
}

static void test_numbers(uint64_t rate_bytes)
{
    static held_case c;
    ginghamowl_shocks *s = &c.fields.shocks;
    uint64_t *const amounts[] = {&c.fields.amounts.mature, &c.fields.amounts.emerging, &c.fields.amounts.private_equity,
                                 &c.fields.amounts.property, &c.fields.amounts.commodities, &c.fields.amounts.credit,
                                 &c.fields.amounts.cash, &c.fields.amounts.currency};
    uint64_t *const shocks[] = {&s->up_shift, &s->down_shift, &s->mature_fall, &s->emerging_fall, &s->private_fall,
                                &s->property_fall, &s->currency_fall, &s->commodities_fall, &s->spread_rise, &s->correlation,
                                &s->equity_correlation};
    size_t i;

    c1_case(&c);
    in_form(&c, rate_bytes);
    c.pension_length = 3;
    c.bonds_length = 3;
    test_limit(&c, &c.fields.ufr, 0, 5000, GINGHAMOWL_REFUSED_UFR);
    for (i = 0; i < 3; i++) {
        test_limit(&c, &c.pension[i], 0, 100000000, GINGHAMOWL_REFUSED_FLOW);
        test_limit(&c, &c.bonds[i], 0, 100000000, GINGHAMOWL_REFUSED_FLOW);
    }
    for (i = 0; i < 8; i++)
        test_limit(&c, amounts[i], 0, 100000000000, GINGHAMOWL_REFUSED_AMOUNT);
    for (i = 0; i < sizeof shocks / sizeof *shocks; i++)
        test_limit(&c, shocks[i], 0, 1000, GINGHAMOWL_REFUSED_SHOCK);
    test_limit(&c, &s->spread, 0, 10000, GINGHAMOWL_REFUSED_SHOCK);
    test_limit(&c, &s->duration, 0, 500, GINGHAMOWL_REFUSED_SHOCK);
    test_limit(&c, &c.fields.people.heads, 1, 1000000, GINGHAMOWL_REFUSED_PEOPLE);
    test_limit(&c, &c.fields.people.pension_age, 0, 1200, GINGHAMOWL_REFUSED_PEOPLE);
    test_limit(&c, &c.fields.people.mean_age, 0, 1200, GINGHAMOWL_REFUSED_PEOPLE);
}

/* Lists without an entry are lent as NULL. */
static void test_counts(uint64_t rate_bytes)
{
    static const size_t wrong_rates[] = {0, 1, 59, 61, 119, 70 * DAY - 1, 70 * DAY + 1, 71 * DAY, 256 * DAY, 257 * DAY};
    static const size_t wrong_pension[] = {0, 121, 256, 257}, wrong_bonds[] = {61, 256, 257};
    static held_case c;
    size_t i;

    largest_case(&c);
    in_form(&c, rate_bytes);
    for (i = 0; i < sizeof wrong_rates / sizeof *wrong_rates; i++) {
        c.rates_length = wrong_rates[i];
        saves_not(&c, GINGHAMOWL_REFUSED_DAY_COUNT);
    }
    for (c.rates_length = DAY; c.rates_length <= 70 * DAY; c.rates_length += 23 * DAY)
        saves(&c);
    c.rates_length = DAY;
    for (i = 0; i < sizeof wrong_pension / sizeof *wrong_pension; i++) {
        c.pension_length = wrong_pension[i];
        saves_not(&c, GINGHAMOWL_REFUSED_FLOW_COUNT);
    }
    for (c.pension_length = 1; c.pension_length <= 120; c.pension_length++)
        saves(&c);
    c.pension_length = 1;
    for (i = 0; i < sizeof wrong_bonds / sizeof *wrong_bonds; i++) {
        c.bonds_length = wrong_bonds[i];
        saves_not(&c, GINGHAMOWL_REFUSED_FLOW_COUNT);
    }
    for (c.bonds_length = 0; c.bonds_length <= 60; c.bonds_length++)
        saves(&c);
}

/* Rates at their limits and past them, and rates that a cut to fewer bytes would let pass. */
static void test_rates(uint64_t rate_bytes)
{
    const int32_t unit = units(rate_bytes), least = -1000 * unit, most = 10000 * unit;
    const int32_t wrong[] = {least - 1, most + 1, 1 << 24, -(1 << 24), (1 << 24) + least, (1 << 30) + most, INT32_MIN, INT32_MAX};
    static const int32_t wrong_in_two[] = {65536, -65536, 64536};
    static const size_t places[] = {0, 59, 60, 70 * DAY - 1};
    static held_case c;
    size_t i, w;

    c1_case(&c);
    in_form(&c, rate_bytes);
    flat_days(&c, 70, least, least);
    saves(&c);
    flat_days(&c, 70, most, most);
    saves(&c);
    for (i = 0; i < sizeof places / sizeof *places; i++) {
        for (w = 0; w < sizeof wrong / sizeof *wrong; w++) {
            c.rates[places[i]] = wrong[w];
            saves_not(&c, GINGHAMOWL_REFUSED_RATE);
        }
        for (w = 0; rate_bytes == GINGHAMOWL_TWO_BYTES && w < sizeof wrong_in_two / sizeof *wrong_in_two; w++) {
            c.rates[places[i]] = wrong_in_two[w];
            saves_not(&c, GINGHAMOWL_REFUSED_RATE);
        }
        c.rates[places[i]] = most;
    }
}

/* Refusal 6: the forward rates of one day, and of the sums over two. */
static void test_growth(uint64_t rate_bytes)
{
    const int32_t unit = units(rate_bytes), least = -1000 * unit;
    static held_case c;

    c1_case(&c);
    in_form(&c, rate_bytes);
    flat_days(&c, 1, 0, 6000 * unit); /* C8 */
    saves(&c);
    flat_days(&c, 1, 0, 6000 * unit + 1);
    saves_not(&c, GINGHAMOWL_REFUSED_GROWTH);
    flat_days(&c, 1, 0, least);
    saves(&c);
    flat_days(&c, 1, 1, least);
    saves_not(&c, GINGHAMOWL_REFUSED_GROWTH);
    flat_days(&c, 2, 0, 6000 * unit); /* the sums over the days count */
    c.rates[1]++;
    c.rates[DAY + 1]--;
    saves(&c);
    c.rates[0]--;
    saves_not(&c, GINGHAMOWL_REFUSED_GROWTH);
}

/* Of two faults, and of all from one on, the first is given. */
static void test_order(uint64_t rate_bytes)
{
    static held_case c;
    const fault *faults = in_order(rate_bytes);
    int first, second;

    for (first = 0; first < FAULTS; first++) {
        for (second = first; second < FAULTS; second++) {
            two_faults(&c, rate_bytes, faults[first], faults[second]);
            saves_not(&c, refusal_of(faults[first]));
        }
        for (second = first; second < FAULTS; second++)
            spoil(&c, faults[second], units(rate_bytes));
        saves_not(&c, refusal_of(faults[first]));
    }
}

static void test_rate_bytes(void)
{
    static held_case c;
    size_t i;

    for (i = 0; i < NO_RATE_BYTES_COUNT; i++) {
        c1_case(&c);
        c.fields.rate_bytes = NO_RATE_BYTES[i];
        saves_not(&c, GINGHAMOWL_REFUSED_MAP);
        c.fields.ufr = 5001;
        c.rates_length = 0;
        saves_not(&c, GINGHAMOWL_REFUSED_MAP);
    }
}

void test_save_refusals(void)
{
    test_numbers(GINGHAMOWL_TWO_BYTES);
    test_counts(GINGHAMOWL_TWO_BYTES);
    test_rates(GINGHAMOWL_TWO_BYTES);
    test_growth(GINGHAMOWL_TWO_BYTES);
    test_order(GINGHAMOWL_TWO_BYTES);
    test_numbers(GINGHAMOWL_FOUR_BYTES);
    test_counts(GINGHAMOWL_FOUR_BYTES);
    test_rates(GINGHAMOWL_FOUR_BYTES);
    test_growth(GINGHAMOWL_FOUR_BYTES);
    test_order(GINGHAMOWL_FOUR_BYTES);
    test_rate_bytes();
}
