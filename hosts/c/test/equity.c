/* The correlation between the equity classes: where a file has it, its limit, and what S2 and S are with it. */
#include "files.h"
#include "saving.h"

/* S2 and S in cents with four losses of 100, 200, 300 and 400 euros and with S6 of 100,000 euros, worked by hand: in units of 100
 * euros the squares sum to 30 and the products of pairs to 35, so at 500 S2 is the root of 30 + 2 x 0.5 x 35. */
typedef struct {
    uint64_t number;
    ginghamowl_bracket s2, s;
} worked;

enum { NUMBERS = 5 };

static const worked WORKED[NUMBERS] = {
    {0, {54772, 54773}, {10000149, 10000151}},
    {1, {54836, 54837}, {10000150, 10000151}},
    {500, {80622, 80623}, {10000324, 10000325}},
    {999, {99964, 99965}, {10000499, 10000500}},
    {1000, {100000, 100000}, {10000499, 10000500}},
};

/* C1 with these losses, and so with a part of each class. */
static void four_losses(held_case *c, uint64_t rate_bytes, uint64_t number)
{
    c1_case(c);
    in_form(c, rate_bytes);
    c->fields.amounts.mature = 1000;
    c->fields.amounts.emerging = 2000;
    c->fields.amounts.private_equity = 500;
    c->fields.amounts.property = 800;
    c->fields.shocks.mature_fall = 100;
    c->fields.shocks.emerging_fall = 100;
    c->fields.shocks.private_fall = 600;
    c->fields.shocks.property_fall = 500;
    c->fields.shocks.equity_correlation = number;
}

/* A file without the field, with this number in it. Returns its length. */
static size_t with_number(const uint8_t *without, size_t length, uint64_t number, uint8_t file[MOST_BYTES])
{
    memcpy(file, without, length);
    file[0] |= 1;
    put(file + length, number, 2);
    return length + 2;
}

/* ---------------------------------------------------------------- initialisers */

static void test_defaults(void)
{
    static const ginghamowl_shocks shocks = GINGHAMOWL_SHOCKS_DEFAULT;
    static const ginghamowl_case_fields fields = GINGHAMOWL_CASE_FIELDS_DEFAULT;
    uint64_t numbers[FIELDS];
    size_t i;

    memcpy(numbers, &fields, sizeof numbers);
    for (i = 0; i < FIELDS; i++)
        CHECK(numbers[i] == (i == 0 ? 2 : i == 1 ? 4200 : i == AT_EQUITY ? 1000 : 0));
    CHECK(memcmp(&shocks, &fields.shocks, sizeof shocks) == 0);
    CHECK(shocks.equity_correlation == 1000 && GINGHAMOWL_DEFAULT_EQUITY_CORRELATION == 1000 && GINGHAMOWL_DEFAULT_UFR == 4200);
}

/* ---------------------------------------------------------------- saving */

/* The field is the last two bytes, where its bit stands; a 1,000 is left out. */
static void test_saved(uint64_t rate_bytes)
{
    static held_case c;
    static uint8_t file[MOST_BYTES], without[MOST_BYTES];
    size_t i, without_length;

    four_losses(&c, rate_bytes, 1000);
    without_length = shortest(&c, without);
    CHECK(without[0] == 0 && without_length == (rate_bytes == GINGHAMOWL_FOUR_BYTES ? C1_FOUR_BYTES : C1_BYTES));
    for (i = 0; i < NUMBERS; i++) {
        uint64_t number = WORKED[i].number;
        size_t length = number == 1000 ? without_length : with_number(without, without_length, number, file);

        c.fields.shocks.equity_correlation = number;
        saves_into(&c, length, GINGHAMOWL_ACCEPTED, number == 1000 ? without : file, length);
        saves(&c);
    }
}

/* Past its limit, and where a cut to two bytes would let it pass. */
static void test_saved_not(uint64_t rate_bytes)
{
    static const uint64_t wrong[] = {1001, 1024, 32768, 65535, 65536, 65536 + 500, ((uint64_t)1 << 32) + 1000, (uint64_t)1 << 63,
                                     UINT64_MAX};
    static held_case c;
    size_t i;

    for (i = 0; i < sizeof wrong / sizeof *wrong; i++) {
        four_losses(&c, rate_bytes, wrong[i]);
        saves_not(&c, GINGHAMOWL_REFUSED_SHOCK);
    }
}

/* ---------------------------------------------------------------- valuing */

/* The file is valued between guards. Factors, zero rates and all figures but S2 and S are those of the file without the field. */
static void values_as(const uint8_t *file, size_t length, const worked *expected, const ginghamowl_valuation *without)
{
    guarded factors = lent(240), rates = lent(240);
    ginghamowl_valuation v = ginghamowl_value(file, length, entries(factors), 240, (int64_t *)entries(rates), 240);

    CHECK(v.refusal == GINGHAMOWL_ACCEPTED && v.verdict == GINGHAMOWL_VRIJ_VERMOGEN);
    CHECK(same_bracket(v.figures.s2, expected->s2.lower, expected->s2.upper));
    CHECK(same_bracket(v.figures.s, expected->s.lower, expected->s.upper));
    CHECK(is_c1_curve(entries(factors), (int64_t *)entries(rates)));
    CHECK(guards_stand(factors) && guards_stand(rates));
    v.figures.s2 = without->figures.s2;
    v.figures.s = without->figures.s;
    CHECK(memcmp(&v.figures, &without->figures, sizeof v.figures) == 0);
    free(factors.all);
    free(rates.all);
}

static void test_valued(uint64_t rate_bytes)
{
    static held_case c;
    static uint8_t file[MOST_BYTES], without[MOST_BYTES];
    uint64_t factors[240] = {0};
    int64_t rates[240] = {0};
    ginghamowl_valuation v;
    size_t i, without_length;

    four_losses(&c, rate_bytes, 1000);
    without_length = shortest(&c, without);
    v = ginghamowl_value(without, without_length, factors, 240, rates, 240);
    values_as(without, without_length, &WORKED[NUMBERS - 1], &v);
    for (i = 0; i < NUMBERS; i++) /* 1,000 too: it may be written out */
        values_as(file, with_number(without, without_length, WORKED[i].number, file), &WORKED[i], &v);
}

/* With one class alone there are no pairs: every number gives the same S2. */
static void test_one_class(void)
{
    static held_case c;
    static uint8_t file[MOST_BYTES];
    uint64_t factors[240] = {0};
    int64_t rates[240] = {0};
    size_t i;

    for (i = 0; i < NUMBERS; i++) {
        four_losses(&c, GINGHAMOWL_TWO_BYTES, WORKED[i].number);
        c.fields.amounts.mature = 0;
        c.fields.shocks.emerging_fall = 0;
        c.fields.amounts.property = 0;
        CHECK(same_bracket(ginghamowl_value(file, shortest(&c, file), factors, 240, rates, 240).figures.s2, 30000, 30000));
    }
}

/* ---------------------------------------------------------------- refused files */

/* The file is refused with this number, and nothing lent changes. */
static void value_refused(const uint8_t *bytes, size_t length, uint8_t refusal)
{
    uint8_t *file = exactly(bytes, length);
    guarded factors = lent(241), rates = lent(300);

    CHECK(ginghamowl_refusal(file, length) == refusal);
    CHECK(is_refused(ginghamowl_value(file, length, entries(factors), 241, (int64_t *)entries(rates), 300), refusal));
    CHECK(guards_stand(factors) && guards_stand(rates) && held_from(factors, 0) && held_from(rates, 0));
    CHECK(unchanged(file, bytes, length));
    free(file);
    free(factors.all);
    free(rates.all);
}

/* 1 inside the field, whatever its first byte is; 11; then 2; then 6. What is wrong with the fields before it comes first. */
static void test_refused(uint64_t rate_bytes)
{
    static const uint64_t wrong[] = {1001, 1024, 32768, 65535};
    static held_case c;
    static uint8_t without[MOST_BYTES], file[MOST_BYTES];
    size_t i, length, without_length;

    four_losses(&c, rate_bytes, 1000);
    c.rates[DAY - 1] = 9999 * units(rate_bytes); /* 6 applies, of the last term */
    without_length = shortest(&c, without);
    for (i = 0; i < sizeof wrong / sizeof *wrong; i++) {
        length = with_number(without, without_length, wrong[i], file);
        value_refused(file, length, GINGHAMOWL_REFUSED_SHOCK);
        file[length] = 0;
        value_refused(file, length + 1, GINGHAMOWL_REFUSED_SHOCK);
        value_refused(file, length - 1, GINGHAMOWL_REFUSED_ENDS_EARLY);
        value_refused(file, length - 2, GINGHAMOWL_REFUSED_ENDS_EARLY);
    }
    length = with_number(without, without_length, 1000, file);
    value_refused(file, length, GINGHAMOWL_REFUSED_GROWTH);
    value_refused(file, length + 1, GINGHAMOWL_REFUSED_BYTES_FOLLOW);
    c.fields.people.heads = 0;
    length = with_number(without, shortest(&c, without), 1001, file);
    value_refused(file, length, GINGHAMOWL_REFUSED_PEOPLE);
    value_refused(file, length - 2, GINGHAMOWL_REFUSED_PEOPLE);
}

/* Days in four bytes are read and checked before the field. */
static void test_behind_four_byte_days(void)
{
    static held_case c;
    static uint8_t without[MOST_BYTES], file[MOST_BYTES];
    size_t length;

    four_losses(&c, GINGHAMOWL_FOUR_BYTES, 1000);
    c.rates[DAY - 1] = 1000001;
    length = with_number(without, shortest(&c, without), 1001, file);
    value_refused(file, length, GINGHAMOWL_REFUSED_RATE);
    value_refused(file, length - 2, GINGHAMOWL_REFUSED_RATE);
    value_refused(file, length - 3, GINGHAMOWL_REFUSED_ENDS_EARLY);
}

/* Bit 8 may stand, and none of the bits above it. */
static void test_bits(uint64_t rate_bytes)
{
    static held_case c;
    static uint8_t without[MOST_BYTES], file[MOST_BYTES];
    size_t length;
    int bit;

    four_losses(&c, rate_bytes, 1000);
    length = with_number(without, shortest(&c, without), 500, file);
    CHECK(ginghamowl_refusal(file, length) == GINGHAMOWL_ACCEPTED);
    for (bit = 1; bit < 8; bit++) {
        file[0] ^= (uint8_t)(1 << bit);
        value_refused(file, length, GINGHAMOWL_REFUSED_MAP);
        file[0] ^= (uint8_t)(1 << bit);
    }
}

void test_equity(void)
{
    static const uint64_t forms[] = {GINGHAMOWL_TWO_BYTES, GINGHAMOWL_FOUR_BYTES};
    size_t i;

    for (i = 0; i < 2; i++) {
        test_saved(forms[i]);
        test_saved_not(forms[i]);
        test_valued(forms[i]);
        test_refused(forms[i]);
        test_bits(forms[i]);
    }
    test_defaults();
    test_one_class();
    test_behind_four_byte_days();
}
