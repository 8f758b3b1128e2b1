/* Rates in four bytes: the same valuation as in two, and decimals that two bytes do not have. */
#include "files.h"
#include "saving.h"

/* The case, and the same with its days in four bytes, have different files and the same valuation. */
static void same_in_four_bytes(const held_case *two)
{
    static held_case four;
    static uint8_t file[MOST_BYTES], four_file[MOST_BYTES];
    guarded factors = lent(241), rates = lent(300);
    size_t length = shortest(two, file), four_length;
    ginghamowl_valuation v;

    four = *two;
    in_form(&four, GINGHAMOWL_FOUR_BYTES);
    saves(two);
    saves(&four);
    four_length = shortest(&four, four_file);
    CHECK(four_length == length + 2 * two->rates_length && memcmp(file, four_file, length) != 0);
    v = ginghamowl_value(four_file, four_length, entries(factors), 241, (int64_t *)entries(rates), 300);
    CHECK(guards_stand(factors) && guards_stand(rates));
    valued_as_the_file(file, length, v, factors, rates);
    free(factors.all);
    free(rates.all);
}

static void test_same_in_four_bytes(void)
{
    static held_case c;

    c1_case(&c);
    same_in_four_bytes(&c);
    flat_days(&c, 1, -1000, -1000);
    same_in_four_bytes(&c);
    flat_days(&c, 1, 0, 6000);
    same_in_four_bytes(&c);
    flat_days(&c, 70, 10000, 10000);
    same_in_four_bytes(&c);
    largest_case(&c);
    same_in_four_bytes(&c);
    for (c.rates_length = DAY; c.rates_length < 70 * DAY; c.rates_length += 23 * DAY)
        same_in_four_bytes(&c);
}

/* The last of the seven decimals counts: at a rate of 0.0000001, 1,000,000 euros in a year are worth about 999,999.90000001 euros. */
static void test_last_decimal(void)
{
    static held_case c;
    static uint8_t file[MOST_BYTES];
    uint64_t factors[240] = {0};
    int64_t rates[240] = {0};
    ginghamowl_valuation v;

    c1_case(&c);
    in_form(&c, GINGHAMOWL_FOUR_BYTES);
    flat_days(&c, 1, 1, 1);
    saves(&c);
    v = ginghamowl_value(file, shortest(&c, file), factors, 240, rates, 240);
    CHECK(same_bracket(v.figures.l, 99999990, 99999991));
    CHECK(factors[GINGHAMOWL_LOWER(1)] == 999999900000 && factors[GINGHAMOWL_UPPER(1)] == 999999900001);
    flat_days(&c, 1, -1, -1);
    saves(&c);
    v = ginghamowl_value(file, shortest(&c, file), factors, 240, rates, 240);
    CHECK(same_bracket(v.figures.l, 100000010, 100000011));
    CHECK(factors[GINGHAMOWL_LOWER(1)] == 1000000100000 && factors[GINGHAMOWL_UPPER(1)] == 1000000100001);
}

void test_four_bytes(void)
{
    test_same_in_four_bytes();
    test_last_decimal();
}
