/* The input as histories of months with their start: as it is, and mended step by step, for bytes that come by chance are out of
 * limits. */
#include "cases.h"

#include <string.h>

enum { HISTORY = GINGHAMOWL_HISTORY_BYTES, HISTORIES = 3 };
ANSWERS(HISTORIES);

typedef struct {
    uint8_t bytes[HISTORY + 1]; /* one more decides the refusal, as of any longer history */
    size_t length;
    uint64_t start;
} held_history;

/* What the engine has to answer. */
static ginghamowl_ufr expected_ufr(const held_history *h)
{
    int64_t raised = 100000 * MONTHS; /* with 100,000 steps more for each month the sum is above 0: the division rounds down */

    if (h->length != HISTORY || h->start >= MONTHS)
        return (ginghamowl_ufr){GINGHAMOWL_REFUSED_HISTORY, 0};
    for (size_t place = 0; place < MONTHS; place++) {
        if (!within_limits(month_at(h->bytes, place)))
            return (ginghamowl_ufr){GINGHAMOWL_REFUSED_MONTH, 0};
        raised += month_at(h->bytes, place);
    }
    int64_t rounded = (raised + 6000) / 12000 * 100 - 100000;
    if (rounded < 0 || rounded > 5000)
        return (ginghamowl_ufr){GINGHAMOWL_REFUSED_MONTHS_UFR, 0};
    return (ginghamowl_ufr){GINGHAMOWL_ACCEPTED, (uint64_t)rounded};
}

/* What ginghamowl_value gives of the accepted file with this UFR in its field. */
static ginghamowl_valuation with_ufr_field(const uint8_t *file, size_t size, uint64_t ufr, uint64_t *factors, uint64_t *rates)
{
    uint8_t named[GINGHAMOWL_FILE_BYTES] = {file[0], file[1] | 1, (uint8_t)(ufr >> 8), (uint8_t)ufr};
    size_t others = file[1] & 1 ? 4 : 2;

    memcpy(named + 4, file + others, size - others);
    return ginghamowl_value(named, size + 4 - others, factors, GINGHAMOWL_ENTRIES, (int64_t *)rates, GINGHAMOWL_ENTRIES);
}

/* A file with a history has the answer and the buffers of the file with the UFR found in its field. The file's own refusal comes
 * first, then the history's; the buffers then hold what they held. */
static void months_valued(const uint8_t *file, size_t size, const held_history *h, const uint8_t *lent_history)
{
    uint64_t *factors = lend(8 * GINGHAMOWL_ENTRIES), *rates = lend(8 * GINGHAMOWL_ENTRIES);
    uint64_t named_factors[GINGHAMOWL_ENTRIES], named_rates[GINGHAMOWL_ENTRIES];
    ginghamowl_ufr ufr = expected_ufr(h);
    ginghamowl_valuation named = {.refusal = ginghamowl_refusal(file, size)};

    hold(factors, GINGHAMOWL_ENTRIES);
    hold(rates, GINGHAMOWL_ENTRIES);
    hold(named_factors, GINGHAMOWL_ENTRIES);
    hold(named_rates, GINGHAMOWL_ENTRIES);
    if (named.refusal == GINGHAMOWL_ACCEPTED)
        named.refusal = ufr.refusal;
    if (named.refusal == GINGHAMOWL_ACCEPTED)
        named = with_ufr_field(file, size, ufr.ufr, named_factors, named_rates);
    ginghamowl_valuation v = ginghamowl_value_with_months(file, size, lent_history, h->length, h->start, factors,
                                                          GINGHAMOWL_ENTRIES, (int64_t *)rates, GINGHAMOWL_ENTRIES);
    REQUIRE(v.refusal == named.refusal && v.verdict == named.verdict);
    REQUIRE(memcmp(&v.figures, &named.figures, sizeof v.figures) == 0);
    REQUIRE(memcmp(factors, named_factors, sizeof named_factors) == 0 && memcmp(rates, named_rates, sizeof named_rates) == 0);
    take_back(factors, 8 * GINGHAMOWL_ENTRIES);
    take_back(rates, 8 * GINGHAMOWL_ENTRIES);
}

/* Both calls with a history of any bytes, beside the input and beside a file that is accepted. */
static void months_answered(const uint8_t *file, size_t size, const uint8_t *accepted, size_t accepted_size, const held_history *h)
{
    uint8_t *history = lend_copy(h->bytes, h->length);
    ginghamowl_ufr expected = expected_ufr(h), found = ginghamowl_ufr_of(history, h->length, h->start);

    REQUIRE(found.refusal == expected.refusal && found.ufr == expected.ufr);
    months_valued(file, size, h, history);
    months_valued(accepted, accepted_size, h, history);
    take_back(history, h->length);
}

/* The start is in the first eight bytes, the history in the others. What they are too few for is 0. */
static held_history history_in(const uint8_t *bytes, size_t size)
{
    held_history h = {.length = 0};
    size_t head = size < sizeof h.start ? size : sizeof h.start;

    h.start = taken(&bytes, (int)head);
    h.length = size - head < sizeof h.bytes ? size - head : sizeof h.bytes;
    if (h.length != 0)
        memcpy(h.bytes, bytes, h.length);
    return h;
}

/* The same with its length and start within range: only months may be out of limits. */
static held_history whole(held_history h)
{
    h.length = HISTORY;
    h.start %= MONTHS;
    return h;
}

/* The same with months from -1,000 to `most` steps: those that are not are replaced. */
static held_history months_to(held_history h, int32_t most)
{
    h = whole(h);
    for (size_t place = 0; place < MONTHS; place++)
        if (month_at(h.bytes, place) < -1000 || month_at(h.bytes, place) > most)
            set_month(h.bytes, place, (uint16_t)month_at(h.bytes, place) % (most + 1001) - 1000);
    return h;
}

/* All months the same, at half a hundred steps or one less: the mean is at a border of rounding, or below it. */
static held_history at_border(held_history h, uint64_t chosen)
{
    h = whole(h);
    for (size_t place = 0; place < MONTHS; place++)
        set_month(h.bytes, place, (int)(chosen / 2 % 110 * 100) - 950);
    if (chosen % 2 == 1)
        set_month(h.bytes, h.start, month_at(h.bytes, h.start) - 1);
    return h;
}

/* Which of the HISTORIES kinds a history of the right length is: with a month out of limits, with its UFR out of limits, right. */
static size_t history_kind(const held_history *h)
{
    uint8_t refusal = expected_ufr(h).refusal;

    return refusal == GINGHAMOWL_REFUSED_MONTH ? 0 : refusal == GINGHAMOWL_REFUSED_MONTHS_UFR ? 1 : 2;
}

/* The input as histories, each beside the input and beside a file that is accepted, which has either days field. */
void fuzz_months(fuzz_input in)
{
    uint8_t accepted[GINGHAMOWL_FILE_BYTES];
    uint64_t chosen = hash_of(in.file, in.size);
    held_case c = chosen >> 32 & 1 ? in_four_bytes(plain) : plain;
    size_t length = save(&c, accepted, sizeof accepted).written;
    held_history given = history_in(in.file, in.size), right_length = whole(given);
    held_history tried[] = {given, right_length, months_to(given, 10000), months_to(given, 5000), at_border(given, chosen)};

    REQUIRE(length > 0);
    for (size_t i = 0; i < sizeof tried / sizeof *tried; i++)
        months_answered(in.file, in.size, accepted, length, &tried[i]);
    answers[history_kind(&right_length)] = 1;
}
