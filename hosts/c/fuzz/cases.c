#include "cases.h"

#include <string.h>

uint64_t taken(const uint8_t **at, int length)
{
    uint64_t number = 0;

    while (length-- > 0)
        number = number << 8 | *(*at)++;
    return number;
}

void take_days(const uint8_t **at, uint64_t rate_bytes, held_case *c)
{
    c->rates_length = GINGHAMOWL_DAY_RATES * taken(at, 1);
    for (size_t i = 0; i < c->rates_length; i++)
        c->rates[i] = rate_bytes == GINGHAMOWL_FOUR_BYTES ? (int32_t)taken(at, 4) : (int16_t)taken(at, 2);
}

static size_t take_flows(const uint8_t **at, uint64_t *flows)
{
    size_t count = taken(at, 1);

    for (size_t i = 0; i < count; i++)
        flows[i] = taken(at, 4);
    return count;
}

held_case decoded(const uint8_t *file)
{
    held_case c = {.bonds_length = 0};
    uint64_t map = taken(&file, 2), rate_bytes = map >> 7 & 1 ? GINGHAMOWL_FOUR_BYTES : GINGHAMOWL_TWO_BYTES;
    uint64_t numbers[FIELDS] = {rate_bytes, 4200, [AT_EQUITY] = 1000}; /* as in c.fields */

    if (map & 1)
        numbers[1] = taken(&file, 2);
    if (rate_bytes == GINGHAMOWL_TWO_BYTES)
        take_days(&file, rate_bytes, &c);
    c.pension_length = take_flows(&file, c.pension);
    if (map >> 3 & 1)
        c.bonds_length = take_flows(&file, c.bonds);
    for (int i = AT_AMOUNTS; i < AT_SHOCKS && map >> 4 & 1; i++)
        numbers[i] = taken(&file, 8);
    for (int i = AT_SHOCKS; i < AT_EQUITY; i++)
        numbers[i] = taken(&file, 2);
    for (int i = AT_PEOPLE; i < FIELDS; i++)
        numbers[i] = taken(&file, i == AT_PEOPLE ? 4 : 2); /* the head count has four */
    if (rate_bytes == GINGHAMOWL_FOUR_BYTES)
        take_days(&file, rate_bytes, &c);
    if (map >> 8 & 1)
        numbers[AT_EQUITY] = taken(&file, 2);
    memcpy(&c.fields, numbers, sizeof numbers);
    return c;
}

ginghamowl_saved save(const held_case *c, uint8_t *out, size_t out_length)
{
    int32_t *rates = lend_copy(c->rates, 4 * c->rates_length);
    uint64_t *pension = lend_copy(c->pension, 8 * c->pension_length), *bonds = lend_copy(c->bonds, 8 * c->bonds_length);
    ginghamowl_saved saved = ginghamowl_save(c->fields, rates, c->rates_length, pension, c->pension_length, bonds,
                                             c->bonds_length, out, out_length);

    take_back(rates, 4 * c->rates_length);
    take_back(pension, 8 * c->pension_length);
    take_back(bonds, 8 * c->bonds_length);
    return saved;
}

const held_case plain = {.fields = {.rate_bytes = GINGHAMOWL_TWO_BYTES, .ufr = 4200, .shocks = GINGHAMOWL_SHOCKS_DEFAULT,
                                    .people = {100, 780, 460}},
                         .rates_length = DAY, .pension = {[29] = 1000000}, .pension_length = 30};

/* The sum of a term's rates over the days. */
static int64_t sum_of(const held_case *c, size_t term)
{
    int64_t sum = 0;

    for (size_t i = term - 1; term > 0 && i < c->rates_length; i += DAY)
        sum += c->rates[i];
    return sum;
}

uint8_t refusal_of_days(const held_case *c)
{
    int64_t unit = c->fields.rate_bytes == GINGHAMOWL_FOUR_BYTES ? 100 : 1, per_step = unit * (int64_t)(c->rates_length / DAY);

    if (c->fields.rate_bytes != GINGHAMOWL_TWO_BYTES && c->fields.rate_bytes != GINGHAMOWL_FOUR_BYTES)
        return GINGHAMOWL_REFUSED_MAP;
    for (size_t i = 0; i < c->rates_length; i++)
        if (c->rates[i] < -1000 * unit || c->rates[i] > 10000 * unit)
            return GINGHAMOWL_REFUSED_RATE;
    for (int64_t t = 1; t <= DAY; t++) {
        int64_t forward = t * sum_of(c, (size_t)t) - (t - 1) * sum_of(c, (size_t)t - 1);

        if (forward < -2000 * per_step || forward > 12000 * per_step)
            return GINGHAMOWL_REFUSED_GROWTH;
    }
    return GINGHAMOWL_ACCEPTED;
}

held_case in_two_bytes(held_case c)
{
    if (c.fields.rate_bytes == GINGHAMOWL_FOUR_BYTES)
        for (size_t i = 0; i < c.rates_length; i++)
            c.rates[i] /= 100;
    c.fields.rate_bytes = GINGHAMOWL_TWO_BYTES;
    return c;
}

held_case in_four_bytes(held_case c)
{
    for (size_t i = 0; i < c.rates_length; i++)
        c.rates[i] *= 100;
    c.fields.rate_bytes = GINGHAMOWL_FOUR_BYTES;
    return c;
}

held_case with_rate_bytes(held_case c, uint64_t rate_bytes)
{
    c.fields.rate_bytes = rate_bytes;
    return c;
}
