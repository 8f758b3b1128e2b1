#include "cases.h"

int32_t units(uint64_t rate_bytes)
{
    return rate_bytes == GINGHAMOWL_FOUR_BYTES ? 100 : 1;
}

void c1_case(held_case *c)
{
    static const ginghamowl_case_fields fields = GINGHAMOWL_CASE_FIELDS_DEFAULT;

    memset(c, 0, sizeof *c);
    c->fields = fields;
    c->fields.amounts.cash = 1100000;
    c->fields.people.heads = 100;
    c->fields.people.pension_age = 780;
    c->fields.people.mean_age = 460;
    c->rates_length = DAY;
    c->pension[0] = 1000000;
    c->pension_length = 1;
}

void largest_case(held_case *c)
{
    static const ginghamowl_amounts amounts = {100000000000, 99999999999, 72057594037, 4294967296, 16777217, 65537, 257, 1};
    static const ginghamowl_shocks shocks = {1000, 999, 258, 259, 260, 261, 262, 263, 264, 265, 10000, 500, 266};
    static const ginghamowl_people people = {1000000, 1200, 1199};
    size_t i;

    c->fields.rate_bytes = GINGHAMOWL_TWO_BYTES;
    c->fields.ufr = 5000;
    c->fields.amounts = amounts;
    c->fields.shocks = shocks;
    c->fields.people = people;
    for (i = 0; i < MOST_RATES; i++) /* from -900 upwards, a little uneven */
        c->rates[i] = (int32_t)(20 * (i / DAY) + i * i % 11) - 900;
    c->rates_length = 70 * DAY;
    for (i = 0; i < MOST_FLOWS; i++) {
        c->pension[i] = 100000000 - 388889 * i;
        c->bonds[i] = 257 * i * i;
    }
    c->pension_length = 120;
    c->bonds_length = 60;
}

void in_form(held_case *c, uint64_t rate_bytes)
{
    size_t i;

    for (i = 0; i < MOST_RATES; i++)
        c->rates[i] *= units(rate_bytes);
    c->fields.rate_bytes = rate_bytes;
}

void refine(held_case *c)
{
    size_t i;

    for (i = 0; i < MOST_RATES; i++)
        c->rates[i] += (int32_t)(37 * i % 99) - 49;
}

void flat_days(held_case *c, size_t days, int32_t first, int32_t others)
{
    size_t i;

    c->rates_length = days * DAY;
    for (i = 0; i < c->rates_length; i++)
        c->rates[i] = i % DAY == 0 ? first : others;
}

int32_t fitting_rate(uint64_t number, uint64_t rate_bytes)
{
    return rate_bytes == GINGHAMOWL_FOUR_BYTES ? (int32_t)number : (int16_t)number;
}

uint8_t *put(uint8_t *at, uint64_t number, int length)
{
    while (length-- > 0)
        *at++ = (uint8_t)(number >> 8 * length);
    return at;
}

static uint8_t *put_flows(uint8_t *at, const uint64_t *flows, size_t count)
{
    size_t i;

    at = put(at, count, 1);
    for (i = 0; i < count; i++)
        at = put(at, flows[i], 4);
    return at;
}

static uint8_t *put_days(uint8_t *at, const held_case *c)
{
    size_t i;

    at = put(at, c->rates_length / DAY, 1);
    for (i = 0; i < c->rates_length; i++)
        at = put(at, (uint64_t)c->rates[i], (int)c->fields.rate_bytes);
    return at;
}

size_t shortest(const held_case *c, uint8_t file[MOST_BYTES])
{
    static const ginghamowl_amounts none;
    int ufr = c->fields.ufr != 4200, bonds = c->bonds_length != 0, four = c->fields.rate_bytes == GINGHAMOWL_FOUR_BYTES;
    int amounts = memcmp(&c->fields.amounts, &none, sizeof none) != 0, equity = c->fields.shocks.equity_correlation != 1000;
    uint64_t numbers[FIELDS];
    uint8_t *at = put(file, (four ? 0xe4 : 0x66) | ufr | bonds << 3 | amounts << 4 | equity << 8, 2);
    size_t i;

    if (ufr)
        at = put(at, c->fields.ufr, 2);
    if (!four)
        at = put_days(at, c);
    at = put_flows(at, c->pension, c->pension_length);
    if (bonds)
        at = put_flows(at, c->bonds, c->bonds_length);
    memcpy(numbers, &c->fields, sizeof numbers);
    for (i = AT_AMOUNTS; amounts && i < AT_SHOCKS; i++)
        at = put(at, numbers[i], 8);
    for (i = AT_SHOCKS; i < AT_EQUITY; i++)
        at = put(at, numbers[i], 2);
    at = put(at, c->fields.people.heads, 4);
    at = put(at, c->fields.people.pension_age, 2);
    at = put(at, c->fields.people.mean_age, 2);
    if (four)
        at = put_days(at, c);
    if (equity)
        at = put(at, numbers[AT_EQUITY], 2);
    return (size_t)(at - file);
}

/* The faults in the order of the checks; days in four bytes are checked after the people. */
static const fault IN_ORDER[2][FAULTS] = {
    {NO_FORM, UFR, DAYS, RATE, PENSIONS, PENSION, BONDS, BOND, AMOUNT, SHOCK, HEADS, EQUITY, GROWTH},
    {NO_FORM, UFR, PENSIONS, PENSION, BONDS, BOND, AMOUNT, SHOCK, HEADS, DAYS, RATE, EQUITY, GROWTH},
};

const fault *in_order(uint64_t rate_bytes)
{
    return IN_ORDER[rate_bytes == GINGHAMOWL_FOUR_BYTES];
}

uint8_t refusal_of(fault which)
{
    static const uint8_t numbers[FAULTS] = {3, 9, 4, 5, 7, 8, 7, 8, 10, 11, 12, 11, 6};

    return numbers[which];
}

void spoil(held_case *c, fault which, int32_t unit)
{
    switch (which) {
    case NO_FORM: c->fields.rate_bytes = 3; break;
    case UFR: c->fields.ufr = 5001; break;
    case DAYS: c->rates_length--; break;
    case RATE: c->rates[0] = -1000 * unit - 1; break;
    case PENSIONS: c->pension_length = 121; break;
    case PENSION: c->pension[0] = 100000001; break;
    case BONDS: c->bonds_length = 61; break;
    case BOND: c->bonds[0] = 100000001; break;
    case AMOUNT: c->fields.amounts.mature = 100000000001; break;
    case SHOCK: c->fields.shocks.up_shift = 1001; break;
    case HEADS: c->fields.people.heads = 0; break;
    case EQUITY: c->fields.shocks.equity_correlation = 1001; break;
    case GROWTH: c->rates[2 * DAY - 1] = 10000 * unit; break;
    }
}

void two_faults(held_case *c, uint64_t rate_bytes, fault first, fault second)
{
    c1_case(c);
    in_form(c, rate_bytes);
    flat_days(c, 2, 0, 0);
    c->bonds_length = 1;
    spoil(c, first, units(rate_bytes));
    spoil(c, second, units(rate_bytes));
}

const uint64_t NO_RATE_BYTES[] = {0, 1, 3, 5, 6, 8, 16, 256 + 2, 65536 + 4, ((uint64_t)1 << 32) + 2, ((uint64_t)1 << 63) + 4,
                                  UINT64_MAX - 1, UINT64_MAX};
