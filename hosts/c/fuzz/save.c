/* The case of an accepted file, saved: as it is, and with its days in two bytes, in four, and in neither. */
#include "cases.h"

#include <string.h>

static int same_answers(const uint8_t *file, size_t size, const uint8_t *other, size_t other_size)
{
    uint64_t factors[2][GINGHAMOWL_ENTRIES];
    int64_t rates[2][GINGHAMOWL_ENTRIES];
    ginghamowl_valuation v = ginghamowl_value(file, size, factors[0], GINGHAMOWL_ENTRIES, rates[0], GINGHAMOWL_ENTRIES);
    ginghamowl_valuation w = ginghamowl_value(other, other_size, factors[1], GINGHAMOWL_ENTRIES, rates[1], GINGHAMOWL_ENTRIES);

    return v.refusal == GINGHAMOWL_ACCEPTED && w.refusal == GINGHAMOWL_ACCEPTED && v.verdict == w.verdict
        && memcmp(&v.figures, &w.figures, sizeof v.figures) == 0 && memcmp(factors[0], factors[1], sizeof factors[0]) == 0
        && memcmp(rates[0], rates[1], sizeof rates[0]) == 0;
}

/* The case of an accepted file fills a buffer of its own length with a file that is no longer, has the same days field and the same
 * answer, and leaves a buffer that is a byte shorter alone. Saved once more, it has the same bytes. */
static void saved(const uint8_t *file, size_t size)
{
    uint8_t whole[GINGHAMOWL_FILE_BYTES];
    held_case c = decoded(file);
    size_t length = save(&c, whole, sizeof whole).written;

    REQUIRE(length > 0 && length <= size && same_answers(file, size, whole, length));
    held_case again = decoded(whole);
    REQUIRE(again.fields.rate_bytes == c.fields.rate_bytes);
    uint8_t *exact = lend(length), *shorter = lend(length - 1);
    memset(shorter, 1, length - 1);
    REQUIRE(save(&again, exact, length).written == length && memcmp(exact, whole, length) == 0);
    ginghamowl_saved refused = save(&c, shorter, length - 1);
    REQUIRE(refused.refusal == GINGHAMOWL_REFUSED_SAVED_BUFFER && refused.written == 0);
    for (size_t i = 0; i < length - 1; i++)
        REQUIRE(shorter[i] == 1);
    take_back(exact, length);
    take_back(shorter, length - 1);
}

/* The case is saved, and its file holds the same case; or it is refused as its days tell, and nothing is written. Returns the length
 * of the file, which is 0 for a refusal. */
static size_t saved_or_refused(const held_case *c, uint8_t file[GINGHAMOWL_FILE_BYTES])
{
    memset(file, 1, GINGHAMOWL_FILE_BYTES);
    ginghamowl_saved saved = save(c, file, GINGHAMOWL_FILE_BYTES);

    REQUIRE(saved.refusal == refusal_of_days(c) && (saved.written == 0) == (saved.refusal != GINGHAMOWL_ACCEPTED));
    for (size_t i = saved.written; i < GINGHAMOWL_FILE_BYTES; i++)
        REQUIRE(file[i] == 1);
    if (saved.refusal == GINGHAMOWL_ACCEPTED) {
        held_case again = decoded(file);

        REQUIRE(memcmp(&again, c, sizeof again) == 0);
    }
    return saved.written;
}

/* The same with other last decimals: the rates are no whole steps, and may be past a limit that they were at. */
static held_case refined(held_case c, uint64_t chosen)
{
    for (size_t i = 0; i < c.rates_length; i++)
        c.rates[i] += (int32_t)((chosen + 37 * i) % 199) - 99;
    return c;
}

static uint64_t other_form(uint64_t rate_bytes)
{
    return rate_bytes == GINGHAMOWL_TWO_BYTES ? GINGHAMOWL_FOUR_BYTES : GINGHAMOWL_TWO_BYTES;
}

/* The case of an accepted file in whole steps has the same answer in two bytes and in four. Its rates may also have other decimals, or
 * be taken for rates of the other form or of none. */
static void in_each_form(const uint8_t *file, size_t size)
{
    uint8_t two_file[GINGHAMOWL_FILE_BYTES], four_file[GINGHAMOWL_FILE_BYTES], other_file[GINGHAMOWL_FILE_BYTES];
    held_case c = decoded(file), two = in_two_bytes(c), four = in_four_bytes(two);
    uint64_t chosen = hash_of(file, size);
    size_t two_length = saved_or_refused(&two, two_file), four_length = saved_or_refused(&four, four_file);
    held_case others[] = {refined(four, chosen), with_rate_bytes(c, other_form(c.fields.rate_bytes)), with_rate_bytes(c, chosen % 9),
                          with_rate_bytes(c, chosen)};

    REQUIRE((two_length == 0) == (four_length == 0));
    REQUIRE(two_length == 0 || same_answers(two_file, two_length, four_file, four_length));
    for (size_t i = 0; i < sizeof others / sizeof *others; i++) {
        size_t length = saved_or_refused(&others[i], other_file);

        REQUIRE(length == 0 || ginghamowl_refusal(other_file, length) == GINGHAMOWL_ACCEPTED);
    }
}

void fuzz_save(fuzz_input in)
{
    if (!in.accepted)
        return;
    saved(in.file, in.size);
    in_each_form(in.file, in.size);
}
