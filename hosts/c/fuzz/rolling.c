/* The input as rolling windows: as it is, and mended step by step, for bytes that come by chance are damaged or out of limits. */
#include "cases.h"

#include <string.h>

enum { WINDOWS = 6 };
ANSWERS(WINDOWS);

/* The day is added, or refused. Any day may be handed in. */
static void added(const ginghamowl_rolling_window *w, int damaged, ginghamowl_day day)
{
    ginghamowl_changed_window changed = ginghamowl_rolling_add(*w, day);
    ginghamowl_rolling_window expected = *w;
    uint8_t refusal = damaged ? GINGHAMOWL_REFUSED_DAMAGED : w->count == SLOTS ? GINGHAMOWL_REFUSED_ROLLING_FULL : 0;

    for (size_t t = 0; t < DAY && refusal == 0; t++)
        if (!within_limits(day.rates[t]))
            refusal = GINGHAMOWL_REFUSED_RATE;
    if (refusal == 0) {
        expected.count++;
        for (size_t t = 0; t < DAY; t++)
            expected.rates[place_of(w, w->count) + t] = (int16_t)day.rates[t];
        set_sums(&expected);
    }
    REQUIRE(changed.refusal == refusal && memcmp(&changed.window, &expected, sizeof expected) == 0);
}

/* The oldest day is dropped, or that is refused. */
static void dropped(const ginghamowl_rolling_window *w, int damaged)
{
    ginghamowl_changed_window changed = ginghamowl_rolling_drop(*w);
    ginghamowl_rolling_window expected = *w;
    uint8_t refusal = damaged ? GINGHAMOWL_REFUSED_DAMAGED : w->count == 0 ? GINGHAMOWL_REFUSED_ROLLING_EMPTY : 0;

    if (refusal == 0) {
        expected.count--;
        expected.start = (w->start + 1) % SLOTS;
        set_sums(&expected);
    }
    REQUIRE(changed.refusal == refusal && memcmp(&changed.window, &expected, sizeof expected) == 0);
}

static ginghamowl_valuation rolling_value(const ginghamowl_rolling_window *w, const held_case *c, uint64_t *factors,
                                          uint64_t *rates)
{
    int32_t *case_rates = lend_copy(c->rates, 4 * c->rates_length);
    uint64_t *pension = lend_copy(c->pension, 8 * c->pension_length), *bonds = lend_copy(c->bonds, 8 * c->bonds_length);
    ginghamowl_valuation v = ginghamowl_rolling_value(*w, c->fields, case_rates, c->rates_length, pension, c->pension_length, bonds,
                                                      c->bonds_length, factors, GINGHAMOWL_ENTRIES, (int64_t *)rates,
                                                      GINGHAMOWL_ENTRIES);

    take_back(case_rates, 4 * c->rates_length);
    take_back(pension, 8 * c->pension_length);
    take_back(bonds, 8 * c->bonds_length);
    return v;
}

static held_case with_days(held_case c, const ginghamowl_rolling_window *w)
{
    c.fields.rate_bytes = GINGHAMOWL_TWO_BYTES;
    c.rates_length = w->count * DAY;
    held_days(w, c.rates);
    return c;
}

/* A case with the window's days has the answer and the buffers of the file that is saved with these days. It is refused where the
 * window is damaged, where the case's own days are refused, and where saving refuses the window's days; the buffers then hold what
 * they held. */
static void rolling_valued(const ginghamowl_rolling_window *w, int damaged, const held_case *c)
{
    uint8_t file[GINGHAMOWL_FILE_BYTES];
    uint64_t *factors = lend(8 * GINGHAMOWL_ENTRIES), *rates = lend(8 * GINGHAMOWL_ENTRIES);
    uint64_t file_factors[GINGHAMOWL_ENTRIES], file_rates[GINGHAMOWL_ENTRIES];
    ginghamowl_valuation of_file = {.refusal = GINGHAMOWL_REFUSED_DAMAGED};

    hold(factors, GINGHAMOWL_ENTRIES);
    hold(rates, GINGHAMOWL_ENTRIES);
    hold(file_factors, GINGHAMOWL_ENTRIES);
    hold(file_rates, GINGHAMOWL_ENTRIES);
    if (!damaged)
        of_file.refusal = refusal_of_days(c);
    if (of_file.refusal == GINGHAMOWL_ACCEPTED) {
        held_case changed = with_days(*c, w);
        ginghamowl_saved saved = ginghamowl_save(changed.fields, changed.rates, changed.rates_length, changed.pension,
                                                 changed.pension_length, changed.bonds, changed.bonds_length, file, sizeof file);

        of_file.refusal = saved.refusal;
        if (saved.refusal == GINGHAMOWL_ACCEPTED)
            of_file = ginghamowl_value(file, saved.written, file_factors, GINGHAMOWL_ENTRIES, (int64_t *)file_rates,
                                       GINGHAMOWL_ENTRIES);
    }
    ginghamowl_valuation v = rolling_value(w, c, factors, rates);
    REQUIRE(v.refusal == of_file.refusal && v.verdict == of_file.verdict);
    REQUIRE(memcmp(&v.figures, &of_file.figures, sizeof v.figures) == 0);
    REQUIRE(memcmp(factors, file_factors, sizeof file_factors) == 0 && memcmp(rates, file_rates, sizeof file_rates) == 0);
    take_back(factors, 8 * GINGHAMOWL_ENTRIES);
    take_back(rates, 8 * GINGHAMOWL_ENTRIES);
}

/* Every call with a window of any bytes, and a case within the limits. What lies in the first slot is the day to add. */
static void rolled(const ginghamowl_rolling_window *w, const held_case *c)
{
    int damaged = is_damaged(w);
    ginghamowl_day day;

    for (size_t t = 0; t < DAY; t++)
        day.rates[t] = w->rates[t];
    added(w, damaged, day);
    day.rates[w->start % DAY] += 65536; /* cut to two bytes it would be as before */
    added(w, damaged, day);
    dropped(w, damaged);
    rolling_valued(w, damaged, c);
}

/* The bytes as a window. What they are too few for is 0. */
static ginghamowl_rolling_window window_in(const uint8_t *bytes, size_t size)
{
    ginghamowl_rolling_window w = {.count = 0};

    if (size != 0)
        memcpy(&w, bytes, size < sizeof w ? size : sizeof w);
    return w;
}

/* The window with count and start within range, and the sums of the days that it then holds: only rates may be out of limits. */
static ginghamowl_rolling_window summed(ginghamowl_rolling_window w)
{
    w.count %= SLOTS + 1;
    w.start %= SLOTS;
    set_sums(&w);
    return w;
}

/* The same with its held rates within limits: it is not damaged. */
static ginghamowl_rolling_window mended(ginghamowl_rolling_window w)
{
    w = summed(w);
    for (uint64_t day = 0; day < w.count; day++)
        for (size_t t = 0; t < DAY; t++) {
            int16_t *rate = &w.rates[place_of(&w, day) + t];

            if (!within_limits(*rate))
                *rate = (int16_t)((uint16_t)*rate % 11001 - 1000);
        }
    return summed(w);
}

/* The window with one bit changed: of any byte, or of one that belongs to no rate. */
static ginghamowl_rolling_window with_one_bit(ginghamowl_rolling_window w, uint64_t chosen)
{
    enum { HEAD = offsetof(ginghamowl_rolling_window, rates), RATES = sizeof w.rates };
    uint8_t bytes[sizeof w];
    size_t at = chosen / 16 % sizeof bytes, no_rate = chosen / 16 % (sizeof bytes - RATES);

    if (chosen % 2 == 1)
        at = no_rate < HEAD ? no_rate : no_rate + RATES;
    memcpy(bytes, &w, sizeof bytes);
    bytes[at] ^= (uint8_t)(1 << chosen / 2 % 8);
    return window_in(bytes, sizeof bytes);
}

/* A window with the days of a case in whole steps, added one after the other. Start and free slots are those of `w`. */
static ginghamowl_rolling_window window_of(const held_case *c, ginghamowl_rolling_window w)
{
    held_case two = in_two_bytes(*c);

    w.count = 0;
    w.start %= SLOTS;
    memset(w.sums, 0, sizeof w.sums);
    for (const int32_t *rates = two.rates; rates < two.rates + two.rates_length; rates += DAY) {
        ginghamowl_day day;

        memcpy(day.rates, rates, sizeof day.rates);
        ginghamowl_changed_window changed = ginghamowl_rolling_add(w, day);
        REQUIRE(changed.refusal == GINGHAMOWL_ACCEPTED);
        w = changed.window;
    }
    return w;
}

/* Which of the WINDOWS kinds a window is: damaged, with count and start both, one or none out of range; or empty, between, full. */
static size_t window_kind(const ginghamowl_rolling_window *w)
{
    if (is_damaged(w))
        return (size_t)(w->count <= SLOTS) + (w->start < SLOTS);
    return w->count == 0 ? 3 : w->count < SLOTS ? 4 : 5;
}

/* The input as rolling windows, valued with its case where it is accepted; one of them also with the days of the case in either form
 * and in none. */
void fuzz_rolling(fuzz_input in)
{
    held_case c = in.accepted ? decoded(in.file) : plain;
    uint64_t chosen = hash_of(in.file, in.size);
    ginghamowl_rolling_window given = window_in(in.file, in.size), right_sums = summed(given), right = mended(given);
    ginghamowl_rolling_window one_bit = with_one_bit(right, chosen);
    held_case two = in_two_bytes(c), four = in_four_bytes(two), no_form = with_rate_bytes(c, chosen % 9);

    REQUIRE(!is_damaged(&right));
    rolled(&given, &c);
    rolled(&right_sums, &c);
    rolled(&right, &c);
    rolled(&one_bit, &c);
    rolling_valued(&right, 0, &two);
    rolling_valued(&right, 0, &four);
    rolling_valued(&right, 0, &no_form);
    rolling_valued(&given, is_damaged(&given), &no_form);
    if (in.accepted) {
        ginghamowl_rolling_window of_case = window_of(&c, given);

        rolled(&of_case, &c);
    }
    answers[window_kind(&given)] = 1;
}
