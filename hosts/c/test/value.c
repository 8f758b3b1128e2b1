/* Files valued and refused, with buffers of every kind of length; and damaged files. */
#include "files.h"

/* One call with buffers of these lengths: the answer, and what the buffers hold. */
static void value_into(const uint8_t *file, size_t length, uint8_t refusal, size_t factors_length, size_t rates_length)
{
    guarded factors = lent(factors_length), rates = lent(rates_length);
    uint8_t *copy = exactly(file, length);
    int small = factors_length < GINGHAMOWL_ENTRIES || rates_length < GINGHAMOWL_ENTRIES;
    ginghamowl_valuation v = ginghamowl_value(copy, length, factors_length == 0 ? NULL : entries(factors), factors_length,
                                              rates_length == 0 ? NULL : (int64_t *)entries(rates), rates_length);

    CHECK(guards_stand(factors) && guards_stand(rates));
    CHECK(copy == NULL || memcmp(copy, file, length) == 0);
    if (small || refusal != GINGHAMOWL_ACCEPTED) {
        CHECK(is_refused(v, small ? GINGHAMOWL_REFUSED_BUFFER : refusal));
        CHECK(held_from(factors, 0) && held_from(rates, 0));
    } else {
        CHECK(is_c1(v));
        CHECK(held_from(factors, GINGHAMOWL_ENTRIES) && held_from(rates, GINGHAMOWL_ENTRIES));
        CHECK(is_c1_curve(entries(factors), (const int64_t *)entries(rates)));
    }
    free(copy);
    free(factors.all);
    free(rates.all);
}

static void test_lengths(void)
{
    static const size_t lengths[] = {0, 1, 239, 240, 241, 1000};
    uint8_t file[C1_BYTES + 1] = {0}, four[C1_FOUR_BYTES + 1] = {0};
    size_t f, r;

    c1(file);
    c1_four(four);
    for (f = 0; f < sizeof lengths / sizeof *lengths; f++)
        for (r = 0; r < sizeof lengths / sizeof *lengths; r++) {
            value_into(file, C1_BYTES, GINGHAMOWL_ACCEPTED, lengths[f], lengths[r]);
            value_into(file, C1_BYTES - 1, GINGHAMOWL_REFUSED_ENDS_EARLY, lengths[f], lengths[r]);
            value_into(file, C1_BYTES + 1, GINGHAMOWL_REFUSED_BYTES_FOLLOW, lengths[f], lengths[r]);
            value_into(four, C1_FOUR_BYTES, GINGHAMOWL_ACCEPTED, lengths[f], lengths[r]);
            value_into(four, C1_FOUR_BYTES - 1, GINGHAMOWL_REFUSED_ENDS_EARLY, lengths[f], lengths[r]);
            value_into(four, C1_FOUR_BYTES + 1, GINGHAMOWL_REFUSED_BYTES_FOLLOW, lengths[f], lengths[r]);
            value_into(NULL, 0, GINGHAMOWL_REFUSED_ENDS_EARLY, lengths[f], lengths[r]);
        }
}

static void test_refused_changes(void)
{
    uint8_t file[C1_FOUR_BYTES];
    ginghamowl_part part;
    size_t form, i;

    for (form = 0; form < 2; form++)
        for (i = 0; i < C1_FORMS[form].count; i++) {
            refused_change change = C1_FORMS[form].changes[i];

            changed_c1(form, change, file);
            value_into(file, C1_FORMS[form].length, change.refusal, 240, 240);
            CHECK(ginghamowl_refusal(file, C1_FORMS[form].length) == change.refusal);
            part = ginghamowl_rates_part(file, C1_FORMS[form].length);
            CHECK(part.offset == 0 && part.length == 0);
        }
}

static void test_refusals(void)
{
    uint8_t file[C1_FOUR_BYTES], *copy;
    size_t form, length;

    for (form = 0; form < 2; form++) {
        C1_FORMS[form].make(file);
        for (length = 0; length < C1_FORMS[form].length; length++) {
            copy = exactly(file, length);
            CHECK(ginghamowl_refusal(copy, length) == GINGHAMOWL_REFUSED_ENDS_EARLY);
            free(copy);
        }
        CHECK(ginghamowl_refusal(file, length) == GINGHAMOWL_ACCEPTED);
    }
    c1(file);
    file[C1_CASH + 7] = 0xdf; /* C2: cash 1,099,999 */
    {
        uint64_t factors[240] = {0};
        int64_t rates[240] = {0};
        ginghamowl_valuation v = ginghamowl_value(file, C1_BYTES, factors, 240, rates, 240);

        CHECK(v.refusal == GINGHAMOWL_ACCEPTED && v.verdict == GINGHAMOWL_RESERVETEKORT);
        CHECK(same_bracket(v.figures.a, 109999900, 109999900));
    }
}

/* Damaged files: whatever the bytes, the three functions agree, and guards and files are as they were. */
static void test_damaged(void)
{
    uint64_t state = 88172645463325252u;
    unsigned long accepted[2] = {0}, round;

    for (round = 0; round < 4000; round++) {
        uint8_t file[C1_FOUR_BYTES + 8] = {0}, *copy;
        guarded factors = lent(300), rates = lent(240);
        size_t form = round % 2, whole = C1_FORMS[form].length, length = whole, hits;
        ginghamowl_valuation v;
        ginghamowl_part part;

        C1_FORMS[form].make(file);
        advance(&state);
        for (hits = 1 + state % 3; hits > 0; hits--) {
            advance(&state);
            file[state % whole] = (uint8_t)(state >> 32);
        }
        if (state % 4 == 0)
            length = (state >> 16) % (whole + 8);
        copy = exactly(file, length);
        v = ginghamowl_value(copy, length, entries(factors), 300, (int64_t *)entries(rates), 240);
        part = ginghamowl_rates_part(copy, length);
        CHECK(v.refusal <= 12 && v.refusal == ginghamowl_refusal(copy, length));
        CHECK((v.refusal == 0) == (v.verdict != GINGHAMOWL_NO_VERDICT) && v.verdict <= 4);
        CHECK((v.refusal == 0) == (part.length != 0));
        CHECK(guards_stand(factors) && guards_stand(rates) && held_from(factors, v.refusal == 0 ? 240 : 0));
        CHECK(v.refusal == 0 || (is_refused(v, v.refusal) && held_from(rates, 0)));
        CHECK(copy == NULL || memcmp(copy, file, length) == 0);
        accepted[form] += v.refusal == 0;
        free(copy);
        free(factors.all);
        free(rates.all);
    }
    CHECK(accepted[0] > 100 && accepted[1] > 100);
}

void test_value(void)
{
    test_lengths();
    test_refused_changes();
    test_refusals();
    test_damaged();
}
