/* The correlation between the equity classes: the case of an accepted file with other numbers in its place. */
#include "cases.h"

#include <string.h>

/* What an accepted file has of the field: nothing, or 0, a number between, or 1,000. */
enum { KINDS = 4 };
ANSWERS(FORMS * KINDS);

/* The case with this number is saved with a field for it, or without where it is 1,000, and that file is valued. */
static ginghamowl_valuation valued_with(held_case c, uint64_t number)
{
    uint8_t file[GINGHAMOWL_FILE_BYTES];
    uint64_t factors[GINGHAMOWL_ENTRIES];
    int64_t rates[GINGHAMOWL_ENTRIES];

    c.fields.shocks.equity_correlation = number;
    ginghamowl_saved saved = save(&c, file, sizeof file);
    REQUIRE(saved.refusal == GINGHAMOWL_ACCEPTED && (file[0] & 1) == (number != 1000));
    REQUIRE(number == 1000 || (uint64_t)(file[saved.written - 2] << 8 | file[saved.written - 1]) == number);
    ginghamowl_valuation v = ginghamowl_value(file, saved.written, factors, GINGHAMOWL_ENTRIES, rates, GINGHAMOWL_ENTRIES);
    REQUIRE(v.refusal == GINGHAMOWL_ACCEPTED);
    return v;
}

static int no_larger(ginghamowl_bracket a, ginghamowl_bracket b)
{
    return a.lower <= b.lower && a.upper <= b.upper;
}

/* A smaller number makes no larger S2 and no larger S, and leaves all else as it is. */
static void grows(ginghamowl_valuation smaller, ginghamowl_valuation larger)
{
    REQUIRE(no_larger(smaller.figures.s2, larger.figures.s2) && no_larger(smaller.figures.s, larger.figures.s));
    smaller.figures.s2 = larger.figures.s2;
    smaller.figures.s = larger.figures.s;
    REQUIRE(memcmp(&smaller.figures, &larger.figures, sizeof smaller.figures) == 0);
}

/* The case with this number, which is past the limit, is refused, and nothing is written. */
static void refused_with(held_case c, uint64_t number)
{
    uint8_t file[GINGHAMOWL_FILE_BYTES];

    memset(file, 1, sizeof file);
    c.fields.shocks.equity_correlation = number;
    ginghamowl_saved saved = save(&c, file, sizeof file);
    REQUIRE(saved.refusal == GINGHAMOWL_REFUSED_SHOCK && saved.written == 0);
    for (size_t i = 0; i < sizeof file; i++)
        REQUIRE(file[i] == 1);
}

/* An accepted file without the field is worth what it is with 1,000 in it, and is refused with more. */
static void written_out(fuzz_input in, uint64_t chosen, ginghamowl_valuation at_most)
{
    size_t length = in.size + 2;
    uint64_t factors[GINGHAMOWL_ENTRIES], number = 1001 + chosen % 64535;
    int64_t rates[GINGHAMOWL_ENTRIES];
    uint8_t *file = lend(length);

    memcpy(file, in.file, in.size);
    file[0] |= 1;
    file[in.size] = 1000 >> 8;
    file[in.size + 1] = 1000 & 0xff;
    ginghamowl_valuation v = ginghamowl_value(file, length, factors, GINGHAMOWL_ENTRIES, rates, GINGHAMOWL_ENTRIES);
    REQUIRE(v.refusal == GINGHAMOWL_ACCEPTED && v.verdict == at_most.verdict);
    REQUIRE(memcmp(&v.figures, &at_most.figures, sizeof v.figures) == 0);
    file[in.size] = (uint8_t)(number >> 8);
    file[in.size + 1] = (uint8_t)number;
    REQUIRE(ginghamowl_refusal(file, length) == GINGHAMOWL_REFUSED_SHOCK);
    take_back(file, length);
}

/* Which of the KINDS a case is. */
static size_t equity_kind(fuzz_input in, uint64_t number)
{
    return (in.file[0] & 1) == 0 ? 0 : 1 + (size_t)(number > 0) + (number > 999);
}

void fuzz_equity(fuzz_input in)
{
    if (!in.accepted)
        return;
    held_case c = decoded(in.file);
    uint64_t chosen = hash_of(in.file, in.size), number = c.fields.shocks.equity_correlation, other = chosen % 1001;
    ginghamowl_valuation given = valued_with(c, number), changed = valued_with(c, other), at_most = valued_with(c, 1000);

    grows(valued_with(c, 0), given);
    grows(given, at_most);
    if (other <= number)
        grows(changed, given);
    else
        grows(given, changed);
    refused_with(c, 1001);
    refused_with(c, 1001 + (chosen >> 1)); /* of up to eight bytes */
    if ((in.file[0] & 1) == 0)
        written_out(in, chosen, at_most);
    answers[in.form * KINDS + equity_kind(in, number)] = 1;
}
