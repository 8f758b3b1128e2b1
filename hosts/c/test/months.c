#include "months.h"

#include "files.h"

held_history with_sum(int sum)
{
    held_history h = {{0}, GINGHAMOWL_HISTORY_BYTES, 0};
    int least = (sum + 1000 * MONTHS) / MONTHS - 1000, place; /* rounded down: no sum is below -1,000 x 120 */

    for (place = 0; place < MONTHS; place++)
        set_month(h.bytes, (size_t)place, least + (place < sum - least * MONTHS));
    return h;
}

held_history flat_months(int month)
{
    return with_sum(month * MONTHS);
}

held_history uneven_months(void)
{
    held_history h = flat_months(0);
    int place;

    for (place = 0; place < MONTHS; place++)
        set_month(h.bytes, (size_t)place, place * place * 37 % 7001 - 900);
    return h;
}

int rounded(int sum)
{
    return 100 * ((sum + 6000 + 12000 * 100) / 12000 - 100); /* 100 more hundreds, so that the division rounds down */
}

int rounded_mean(const held_history *h)
{
    int sum = 0;
    size_t place;

    for (place = 0; place < MONTHS; place++)
        sum += month_at(h->bytes, place);
    return rounded(sum);
}

uint8_t history_refusal(const held_history *h)
{
    size_t place;

    if (h->length != GINGHAMOWL_HISTORY_BYTES || h->start >= MONTHS)
        return GINGHAMOWL_REFUSED_HISTORY;
    for (place = 0; place < MONTHS; place++)
        if (!within_limits(month_at(h->bytes, place)))
            return GINGHAMOWL_REFUSED_MONTH;
    return rounded_mean(h) < 0 || rounded_mean(h) > 5000 ? GINGHAMOWL_REFUSED_MONTHS_UFR : GINGHAMOWL_ACCEPTED;
}

void gives(const held_history *h, uint8_t refusal, uint64_t ufr)
{
    size_t after;

    for (after = 0; after <= GUARDS; after += GUARDS) {
        read_only history = lent_bytes(h->bytes, h->length, after);
        ginghamowl_ufr found = ginghamowl_ufr_of(bytes_of(history), h->length, h->start);

        CHECK(found.refusal == refusal && found.ufr == ufr);
        CHECK(as_lent(history, h->bytes));
        free(history.all);
    }
}

size_t with_ufr_field(const uint8_t *file, size_t length, uint64_t ufr, uint8_t named[MOST_BYTES])
{
    size_t others = (file[1] & 1) == 1 ? 4 : 2;

    put(named, (uint64_t)(file[0] << 8 | file[1] | 1), 2);
    put(named + 2, ufr, 2);
    memcpy(named + 4, file + others, length - others);
    return length + 4 - others;
}

void months_into(const uint8_t *bytes, size_t length, const held_history *h, uint8_t refusal, size_t factors_length,
                 size_t rates_length)
{
    static uint8_t named[MOST_BYTES];
    size_t after;

    for (after = 0; after <= GUARDS; after += GUARDS) {
        read_only file = lent_bytes(bytes, length, after), history = lent_bytes(h->bytes, h->length, after);
        guarded factors = lent(factors_length), rates = lent(rates_length);
        ginghamowl_valuation v = ginghamowl_value_with_months(
            bytes_of(file), length, bytes_of(history), h->length, h->start,
            factors_length == 0 ? NULL : entries(factors), factors_length,
            rates_length == 0 ? NULL : (int64_t *)entries(rates), rates_length);

        CHECK(guards_stand(factors) && guards_stand(rates));
        CHECK(as_lent(file, bytes) && as_lent(history, h->bytes));
        if (refusal == GINGHAMOWL_ACCEPTED)
            valued_as_the_file(named, with_ufr_field(bytes, length, (uint64_t)rounded_mean(h), named), v, factors, rates);
        else
            CHECK(is_refused(v, refusal) && held_from(factors, 0) && held_from(rates, 0));
        free(file.all);
        free(history.all);
        free(factors.all);
        free(rates.all);
    }
}

void months_not(const uint8_t *file, size_t length, const held_history *h, uint8_t refusal)
{
    months_into(file, length, h, refusal, 240, 240);
    months_into(file, length, h, GINGHAMOWL_REFUSED_BUFFER, 239, 240);
    months_into(file, length, h, GINGHAMOWL_REFUSED_BUFFER, 240, 0);
}

void refuses(const held_history *h, uint8_t refusal)
{
    uint8_t file[C1_BYTES];

    c1(file);
    gives(h, refusal, 0);
    months_not(file, C1_BYTES, h, refusal);
}
