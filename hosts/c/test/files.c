#include "files.h"

void c1(uint8_t file[C1_BYTES])
{
    memset(file, 0, C1_BYTES);
    file[1] = 0x76;
    file[2] = 1; /* one day, all rates 0 */
    file[123] = 1; /* one flow, of 1,000,000 */
    file[125] = 0x0f;
    file[126] = 0x42;
    file[127] = 0x40;
    file[C1_CASH + 5] = 0x10; /* cash 1,100,000 */
    file[C1_CASH + 6] = 0xc8;
    file[C1_CASH + 7] = 0xe0;
    file[219] = 100; /* heads, pension age 780, mean age 460 */
    file[220] = 0x03;
    file[221] = 0x0c;
    file[222] = 0x01;
    file[223] = 0xcc;
}

void c1_four(uint8_t file[C1_FOUR_BYTES])
{
    uint8_t two[C1_BYTES];

    c1(two);
    memset(file, 0, C1_FOUR_BYTES);
    file[1] = 0xf4;
    memcpy(file + 2, two + 123, C1_BYTES - 123);
    file[C1_FOUR_DAYS] = 1;
}

static const refused_change CHANGES[] = {
    {0, 0x80, GINGHAMOWL_REFUSED_MAP},
    {0, 0x02, GINGHAMOWL_REFUSED_MAP},
    {0, 0x01, GINGHAMOWL_REFUSED_ENDS_EARLY}, /* the correlation of bit 8 is missing */
    {1, 0x74, GINGHAMOWL_REFUSED_MAP}, /* neither bit 1 nor bit 7 */
    {1, 0xf6, GINGHAMOWL_REFUSED_MAP}, /* both */
    {2, 0, GINGHAMOWL_REFUSED_DAY_COUNT},
    {2, 71, GINGHAMOWL_REFUSED_DAY_COUNT},
    {3, 0x7f, GINGHAMOWL_REFUSED_RATE},
    {3, 0x80, GINGHAMOWL_REFUSED_RATE},
    {121, 0x01, GINGHAMOWL_REFUSED_GROWTH}, /* term 60 at 256 steps: 60 x 256 is above 12,000 */
    {123, 0, GINGHAMOWL_REFUSED_FLOW_COUNT},
    {123, 121, GINGHAMOWL_REFUSED_FLOW_COUNT},
    {123, 60, GINGHAMOWL_REFUSED_ENDS_EARLY},
    {124, 0xff, GINGHAMOWL_REFUSED_FLOW},
    {128, 0x80, GINGHAMOWL_REFUSED_AMOUNT},
    {192, 0xff, GINGHAMOWL_REFUSED_SHOCK},
    {216, 0x01, GINGHAMOWL_REFUSED_PEOPLE},
    {222, 0x05, GINGHAMOWL_REFUSED_PEOPLE},
};

/* The same where its days are in four bytes. */
static const refused_change FOUR_CHANGES[] = {
    {0, 0x80, GINGHAMOWL_REFUSED_MAP},
    {0, 0x02, GINGHAMOWL_REFUSED_MAP},
    {0, 0x01, GINGHAMOWL_REFUSED_ENDS_EARLY}, /* the correlation of bit 8 is missing */
    {1, 0x74, GINGHAMOWL_REFUSED_MAP}, /* neither bit 1 nor bit 7 */
    {1, 0xf6, GINGHAMOWL_REFUSED_MAP}, /* both */
    {1, 0xf0, GINGHAMOWL_REFUSED_MAP},
    {2, 0, GINGHAMOWL_REFUSED_FLOW_COUNT},
    {2, 121, GINGHAMOWL_REFUSED_FLOW_COUNT},
    {2, 120, GINGHAMOWL_REFUSED_ENDS_EARLY},
    {3, 0xff, GINGHAMOWL_REFUSED_FLOW},
    {7, 0x80, GINGHAMOWL_REFUSED_AMOUNT},
    {71, 0xff, GINGHAMOWL_REFUSED_SHOCK},
    {95, 0x01, GINGHAMOWL_REFUSED_PEOPLE},
    {101, 0x05, GINGHAMOWL_REFUSED_PEOPLE},
    {C1_FOUR_DAYS, 0, GINGHAMOWL_REFUSED_DAY_COUNT},
    {C1_FOUR_DAYS, 71, GINGHAMOWL_REFUSED_DAY_COUNT},
    {C1_FOUR_DAYS, 2, GINGHAMOWL_REFUSED_ENDS_EARLY},
    {104, 0x01, GINGHAMOWL_REFUSED_RATE},
    {104, 0x80, GINGHAMOWL_REFUSED_RATE},
    {105, 0x10, GINGHAMOWL_REFUSED_RATE},   /* 1,048,576 */
    {342, 0x4f, GINGHAMOWL_REFUSED_GROWTH}, /* term 60 at 20,224: 60 x 20,224 is above 1,200,000 */
};

const c1_form C1_FORMS[2] = {
    {c1, C1_BYTES, CHANGES, sizeof CHANGES / sizeof *CHANGES},
    {c1_four, C1_FOUR_BYTES, FOUR_CHANGES, sizeof FOUR_CHANGES / sizeof *FOUR_CHANGES},
};

void changed_c1(size_t form, refused_change change, uint8_t file[C1_FOUR_BYTES])
{
    C1_FORMS[form].make(file);
    file[change.at] = change.byte;
}

int same_bracket(ginghamowl_bracket b, uint64_t lower, uint64_t upper)
{
    return b.lower == lower && b.upper == upper;
}

static int no_figures(ginghamowl_figures f)
{
    return same_bracket(f.l, 0, 0) && same_bracket(f.b, 0, 0) && same_bracket(f.a, 0, 0) && same_bracket(f.s1, 0, 0)
        && same_bracket(f.s2, 0, 0) && same_bracket(f.s3, 0, 0) && same_bracket(f.s4, 0, 0)
        && same_bracket(f.s5, 0, 0) && same_bracket(f.s6, 0, 0) && same_bracket(f.s, 0, 0);
}

int is_c1(ginghamowl_valuation v)
{
    ginghamowl_figures f = v.figures;

    return v.refusal == GINGHAMOWL_ACCEPTED && v.verdict == GINGHAMOWL_VRIJ_VERMOGEN
        && same_bracket(f.l, 100000000, 100000000) && same_bracket(f.b, 0, 0)
        && same_bracket(f.a, 110000000, 110000000) && same_bracket(f.s1, 0, 0) && same_bracket(f.s2, 0, 0)
        && same_bracket(f.s3, 0, 0) && same_bracket(f.s4, 0, 0) && same_bracket(f.s5, 0, 0)
        && same_bracket(f.s6, 10000000, 10000000) && same_bracket(f.s, 10000000, 10000000);
}

int is_refused(ginghamowl_valuation v, uint8_t refusal)
{
    return v.refusal == refusal && v.verdict == GINGHAMOWL_NO_VERDICT && no_figures(v.figures);
}

int is_c1_curve(const uint64_t *factors, const int64_t *rates)
{
    size_t t;

    for (t = 1; t <= 20; t++)
        if (factors[GINGHAMOWL_LOWER(t)] != 1000000000000 || factors[GINGHAMOWL_UPPER(t)] != 1000000000000
            || rates[GINGHAMOWL_LOWER(t)] != 0 || rates[GINGHAMOWL_UPPER(t)] != 0)
            return 0;
    if (factors[GINGHAMOWL_LOWER(21)] * 250903 > 250000000000000000 || factors[GINGHAMOWL_UPPER(21)] * 250903 < 250000000000000000)
        return 0;
    for (t = 22; t <= GINGHAMOWL_TERMS; t++)
        if (factors[GINGHAMOWL_LOWER(t)] > factors[GINGHAMOWL_UPPER(t)]
            || factors[GINGHAMOWL_UPPER(t)] >= factors[GINGHAMOWL_LOWER(t - 1)]
            || rates[GINGHAMOWL_LOWER(t)] > rates[GINGHAMOWL_UPPER(t)] || rates[GINGHAMOWL_LOWER(t)] < 0
            || rates[GINGHAMOWL_UPPER(t)] > 4200)
            return 0;
    return 1;
}

void valued_as_the_file(const uint8_t *file, size_t length, ginghamowl_valuation v, guarded factors, guarded rates)
{
    guarded file_factors = lent(factors.length), file_rates = lent(rates.length);
    ginghamowl_valuation of_file = ginghamowl_value(file, length, entries(file_factors), factors.length,
                                                    (int64_t *)entries(file_rates), rates.length);

    CHECK(of_file.refusal == GINGHAMOWL_ACCEPTED);
    CHECK(v.refusal == of_file.refusal && v.verdict == of_file.verdict);
    CHECK(memcmp(&v.figures, &of_file.figures, sizeof v.figures) == 0);
    CHECK(memcmp(entries(factors), entries(file_factors), factors.length * sizeof *factors.all) == 0);
    CHECK(memcmp(entries(rates), entries(file_rates), rates.length * sizeof *rates.all) == 0);
    free(file_factors.all);
    free(file_rates.all);
}
