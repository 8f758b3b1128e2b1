#include "rolling.h"

#include "files.h"

ginghamowl_day numbered_day(size_t number)
{
    ginghamowl_day day;
    size_t t;

    for (t = 0; t < DAY; t++)
        day.rates[t] = (int32_t)(20 * (number % 500) + (DAY * number + t) * (DAY * number + t) % 11) - 900;
    return day;
}

ginghamowl_day flat_day(int32_t first, int32_t others)
{
    ginghamowl_day day;
    size_t t;

    for (t = 0; t < DAY; t++)
        day.rates[t] = t == 0 ? first : others;
    return day;
}

static void set_day(ginghamowl_rolling_window *w, uint64_t day, ginghamowl_day rates)
{
    size_t t;

    for (t = 0; t < DAY; t++)
        w->rates[place_of(w, day) + t] = (int16_t)rates.rates[t];
}

ginghamowl_rolling_window made_window(uint64_t start, uint64_t count)
{
    ginghamowl_rolling_window w;
    size_t i;

    w.start = start;
    w.count = count;
    for (i = 0; i < GINGHAMOWL_WINDOW_RATES; i++)
        w.rates[i] = i % 2 == 0 ? INT16_MIN : INT16_MAX;
    for (i = 0; i < count; i++)
        set_day(&w, i, numbered_day(i));
    set_sums(&w);
    return w;
}

int same_window(const ginghamowl_rolling_window *w, const ginghamowl_rolling_window *other)
{
    return memcmp(w, other, sizeof *w) == 0;
}

void adds(ginghamowl_rolling_window *w, ginghamowl_day day)
{
    ginghamowl_changed_window changed = ginghamowl_rolling_add(*w, day);

    w->count++;
    set_day(w, w->count - 1, day);
    set_sums(w);
    CHECK(changed.refusal == GINGHAMOWL_ACCEPTED);
    CHECK(same_window(&changed.window, w));
}

void adds_not(const ginghamowl_rolling_window *w, ginghamowl_day day, uint8_t refusal)
{
    ginghamowl_changed_window changed = ginghamowl_rolling_add(*w, day);

    CHECK(changed.refusal == refusal);
    CHECK(same_window(&changed.window, w));
}

void drops(ginghamowl_rolling_window *w)
{
    ginghamowl_changed_window changed = ginghamowl_rolling_drop(*w);

    w->count--;
    w->start = (w->start + 1) % SLOTS;
    set_sums(w);
    CHECK(changed.refusal == GINGHAMOWL_ACCEPTED);
    CHECK(same_window(&changed.window, w));
}

void drops_not(const ginghamowl_rolling_window *w, uint8_t refusal)
{
    ginghamowl_changed_window changed = ginghamowl_rolling_drop(*w);

    CHECK(changed.refusal == refusal);
    CHECK(same_window(&changed.window, w));
}

/* The file of the case with the window's days, which are in two bytes. Returns its length. */
static size_t with_days_of(const ginghamowl_rolling_window *w, const held_case *c, uint8_t file[MOST_BYTES])
{
    static held_case with_days;

    with_days = *c;
    with_days.fields.rate_bytes = GINGHAMOWL_TWO_BYTES;
    with_days.rates_length = w->count * DAY;
    held_days(w, with_days.rates);
    return shortest(&with_days, file);
}

void rolling_value_into(const ginghamowl_rolling_window *w, const held_case *c, uint8_t refusal, size_t factors_length,
                        size_t rates_length)
{
    static uint8_t file[MOST_BYTES];
    size_t case_rates_size = c->rates_length * sizeof *c->rates, pension_size = c->pension_length * sizeof *c->pension;
    size_t bonds_size = c->bonds_length * sizeof *c->bonds;
    int32_t *case_rates = exactly(c->rates, case_rates_size);
    uint64_t *pension = exactly(c->pension, pension_size), *bonds = exactly(c->bonds, bonds_size);
    guarded factors = lent(factors_length), rates = lent(rates_length);
    ginghamowl_valuation v = ginghamowl_rolling_value(
        *w, c->fields, case_rates, c->rates_length, pension, c->pension_length, bonds, c->bonds_length,
        factors_length == 0 ? NULL : entries(factors), factors_length,
        rates_length == 0 ? NULL : (int64_t *)entries(rates), rates_length);

    CHECK(guards_stand(factors) && guards_stand(rates));
    CHECK(unchanged(case_rates, c->rates, case_rates_size) && unchanged(pension, c->pension, pension_size)
          && unchanged(bonds, c->bonds, bonds_size));
    if (refusal == GINGHAMOWL_ACCEPTED)
        valued_as_the_file(file, with_days_of(w, c, file), v, factors, rates);
    else
        CHECK(is_refused(v, refusal) && held_from(factors, 0) && held_from(rates, 0));
    free(case_rates);
    free(pension);
    free(bonds);
    free(factors.all);
    free(rates.all);
}

void rolling_values(const ginghamowl_rolling_window *w, const held_case *c)
{
    rolling_value_into(w, c, GINGHAMOWL_ACCEPTED, 240, 240);
    rolling_value_into(w, c, GINGHAMOWL_ACCEPTED, 300, 241);
}

void rolling_values_not(const ginghamowl_rolling_window *w, const held_case *c, uint8_t refusal)
{
    rolling_value_into(w, c, refusal, 240, 240);
    rolling_value_into(w, c, GINGHAMOWL_REFUSED_BUFFER, 239, 240);
    rolling_value_into(w, c, GINGHAMOWL_REFUSED_BUFFER, 240, 0);
}

void takes(const ginghamowl_rolling_window *w)
{
    ginghamowl_rolling_window copy = *w;

    if (w->count == SLOTS)
        adds_not(w, numbered_day(7), GINGHAMOWL_REFUSED_ROLLING_FULL);
    else
        adds(&copy, numbered_day(7));
    copy = *w;
    if (w->count == 0)
        drops_not(w, GINGHAMOWL_REFUSED_ROLLING_EMPTY);
    else
        drops(&copy);
}

void takes_not(const ginghamowl_rolling_window *w)
{
    static held_case c;

    adds_not(w, numbered_day(7), GINGHAMOWL_REFUSED_DAMAGED);
    adds_not(w, flat_day(-1001, 10001), GINGHAMOWL_REFUSED_DAMAGED);
    drops_not(w, GINGHAMOWL_REFUSED_DAMAGED);
    c1_case(&c);
    rolling_value_into(w, &c, GINGHAMOWL_REFUSED_DAMAGED, 240, 240);
    rolling_value_into(w, &c, GINGHAMOWL_REFUSED_DAMAGED, 0, 239);
    c.fields.ufr = 5001;
    rolling_value_into(w, &c, GINGHAMOWL_REFUSED_DAMAGED, 240, 240);
}
