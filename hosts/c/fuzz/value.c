/* The file valued into buffers of several lengths, its listing, and the part that has its rates. */
#include "cases.h"

#include <string.h>

enum { KINDS = 17, LENGTHS = 64, MOST = 1000 };
ANSWERS(FORMS * KINDS * LENGTHS);

/* Values the file into buffers of these lengths, and checks the answer against the refusal alone. */
static ginghamowl_valuation valued(const uint8_t *file, size_t size, size_t factors_length, size_t rates_length)
{
    uint64_t *factors = lend(8 * factors_length), *rates = lend(8 * rates_length);
    int short_buffer = factors_length < GINGHAMOWL_ENTRIES || rates_length < GINGHAMOWL_ENTRIES;
    uint8_t refusal = short_buffer ? GINGHAMOWL_REFUSED_BUFFER : ginghamowl_refusal(file, size);
    size_t first = refusal == GINGHAMOWL_ACCEPTED ? GINGHAMOWL_ENTRIES : 0;

    hold(factors, factors_length);
    hold(rates, rates_length);
    ginghamowl_valuation v = ginghamowl_value(file, size, factors, factors_length, (int64_t *)rates, rates_length);
    REQUIRE(v.refusal == refusal);
    REQUIRE((v.verdict == GINGHAMOWL_NO_VERDICT) == (refusal != GINGHAMOWL_ACCEPTED));
    REQUIRE(v.verdict <= GINGHAMOWL_ONBESLIST);
    REQUIRE(held_from(first, factors, factors_length));
    REQUIRE(held_from(first, rates, rates_length));
    for (uint64_t point = refusal == GINGHAMOWL_ACCEPTED ? 1 : 121; point <= 130; point++) { /* money needs no factor */
        ginghamowl_point p = ginghamowl_window_point(point, factors, factors_length, v.figures);
        REQUIRE(p.kind == (point <= 120 ? GINGHAMOWL_FACTOR : GINGHAMOWL_MONEY) && p.lower <= p.upper);
    }
    take_back(factors, 8 * factors_length);
    take_back(rates, 8 * rates_length);
    return v;
}

/* The listing fills a buffer of its own length, and leaves one that is a byte shorter alone. */
static void listed(ginghamowl_valuation v)
{
    uint8_t whole[GINGHAMOWL_LISTING_BYTES];
    size_t length = ginghamowl_listing(v, whole, sizeof whole);
    uint8_t *exact = lend(length), *shorter = lend(length - 1);

    REQUIRE(length > 0);
    memset(shorter, 1, length - 1);
    REQUIRE(ginghamowl_listing(v, exact, length) == length && memcmp(exact, whole, length) == 0);
    REQUIRE(ginghamowl_listing(v, shorter, length - 1) == 0);
    for (size_t i = 0; i < length - 1; i++)
        REQUIRE(shorter[i] == 1);
    take_back(exact, length);
    take_back(shorter, length - 1);
}

/* The part of an accepted file has its rates and nothing else. */
static void part_of(const uint8_t *file, ginghamowl_part part)
{
    held_case c = decoded(file), in_part = {.rates_length = 0};
    const uint8_t *count = file + part.offset - 1;

    REQUIRE(part.length == c.rates_length * c.fields.rate_bytes);
    REQUIRE(GINGHAMOWL_DAY_RATES * (size_t)*count == c.rates_length);
    take_days(&count, c.fields.rate_bytes, &in_part);
    REQUIRE(memcmp(in_part.rates, c.rates, sizeof c.rates) == 0);
}

/* Counts the answer by the days field, the refusal or verdict, and the length. */
static void count_answer(fuzz_input in, ginghamowl_valuation v)
{
    size_t kind = in.accepted ? 12 + (size_t)v.verdict : v.refusal;
    size_t length = in.size < GINGHAMOWL_FILE_BYTES ? in.size * LENGTHS / (GINGHAMOWL_FILE_BYTES + 1) : LENGTHS - 1;

    answers[(in.form * KINDS + kind) * LENGTHS + length] = 1;
}

void fuzz_value(fuzz_input in)
{
    static const size_t lengths[] = {0, 239, 240, MOST};
    ginghamowl_part part = ginghamowl_rates_part(in.file, in.size);

    REQUIRE(part.offset <= in.size && part.length <= in.size - part.offset);
    /* One pair of lengths of all, by the size; and one that is long enough. */
    listed(valued(in.file, in.size, lengths[in.size % 4], lengths[in.size / 4 % 4]));
    ginghamowl_valuation v = valued(in.file, in.size, MOST, GINGHAMOWL_ENTRIES);
    REQUIRE((v.refusal == GINGHAMOWL_ACCEPTED) == in.accepted);
    REQUIRE((part.length == 0) == !in.accepted);
    listed(v);
    if (in.accepted)
        part_of(in.file, part);
    count_answer(in, v);
}
