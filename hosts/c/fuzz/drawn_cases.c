/* Inputs that are accepted: files of drawn cases. */
#include "cases.h"

#include <string.h>

size_t LLVMFuzzerMutate(uint8_t *data, size_t size, size_t most); /* of libFuzzer */
size_t LLVMFuzzerCustomMutator(uint8_t *data, size_t size, size_t most, unsigned seed);

/* A number from 0 to `most`, now and then one of these two, and now and then one of fewer digits. */
static uint64_t up_to(uint64_t *state, uint64_t most)
{
    uint64_t way = drawn(state) % 8, number = drawn(state);

    if (way < 2)
        return way == 0 ? 0 : most;
    return number % ((most >> (way == 2 ? drawn(state) % 16 : 0)) + 1);
}

/* A day that passes refusals 5 and 6: a rate is the mean, rounded down, of forward rates from -1 to 10 percent. */
static void draw_day(uint64_t *state, int32_t unit, int32_t *rates)
{
    int64_t raised = 0; /* the sum of the forward rates, each raised by 1 percent, so that the division rounds down */

    for (int64_t t = 1; t <= DAY; t++) {
        raised += (int64_t)up_to(state, 11000 * (uint64_t)unit);
        rates[t - 1] = (int32_t)(raised / t) - 1000 * unit;
    }
}

static size_t draw_flows(uint64_t *state, uint64_t count, uint64_t *flows)
{
    for (uint64_t i = 0; i < count; i++)
        flows[i] = up_to(state, 100000000);
    return count;
}

/* A case within the limits. */
static held_case drawn_case(uint64_t *state, uint64_t rate_bytes)
{
    static const uint64_t shock_limits[13] = {1000, 1000, 1000, 1000, 1000, 1000, 1000, 1000, 1000, 1000, 10000, 500, 1000};
    held_case c = {.rates_length = DAY * (1 + up_to(state, 69))};
    uint64_t numbers[FIELDS] = {rate_bytes, up_to(state, 5000)}; /* as in c.fields */

    for (size_t i = 0; i < c.rates_length; i += DAY)
        draw_day(state, rate_bytes == GINGHAMOWL_FOUR_BYTES ? 100 : 1, c.rates + i);
    c.pension_length = draw_flows(state, 1 + up_to(state, 119), c.pension);
    c.bonds_length = draw_flows(state, up_to(state, 60), c.bonds);
    for (int i = AT_AMOUNTS; i < AT_SHOCKS; i++)
        numbers[i] = up_to(state, 100000000000);
    for (int i = AT_SHOCKS; i < AT_PEOPLE; i++)
        numbers[i] = up_to(state, shock_limits[i - AT_SHOCKS]);
    numbers[AT_PEOPLE] = 1 + up_to(state, 999999);
    for (int i = AT_PEOPLE + 1; i < FIELDS; i++)
        numbers[i] = up_to(state, 1200);
    memcpy(&c.fields, numbers, sizeof numbers);
    return c;
}

/* libFuzzer's own changes of a file seldom give one that is accepted. So a quarter of the inputs are drawn cases, with their days in
 * either form, and with and without a field for the correlation between the equity classes. */
size_t LLVMFuzzerCustomMutator(uint8_t *data, size_t size, size_t most, unsigned seed)
{
    uint64_t state = (hash_of(data, size) ^ seed) | 1;

    if (drawn(&state) % 4 != 0 || most < GINGHAMOWL_FILE_BYTES)
        return LLVMFuzzerMutate(data, size, most);
    held_case c = drawn_case(&state, drawn(&state) % 2 == 0 ? GINGHAMOWL_TWO_BYTES : GINGHAMOWL_FOUR_BYTES);
    ginghamowl_saved saved = save(&c, data, most);
    REQUIRE(saved.refusal == GINGHAMOWL_ACCEPTED);
    return saved.written;
}
