#include "common.h"

#include <string.h>

void advance(uint64_t *state)
{
    *state ^= *state << 13, *state ^= *state >> 7, *state ^= *state << 17;
}

uint64_t drawn(uint64_t *state)
{
    advance(state);
    return *state >> 16;
}

size_t place_of(const ginghamowl_rolling_window *w, uint64_t day)
{
    return DAY * ((w->start + day) % SLOTS);
}

void set_sums(ginghamowl_rolling_window *w)
{
    uint64_t day;
    size_t t;

    memset(w->sums, 0, sizeof w->sums);
    for (day = 0; day < w->count; day++)
        for (t = 0; t < DAY; t++)
            w->sums[t] += w->rates[place_of(w, day) + t];
}

int within_limits(int32_t rate)
{
    return rate >= -1000 && rate <= 10000;
}

int is_damaged(const ginghamowl_rolling_window *w)
{
    ginghamowl_rolling_window right;
    uint64_t day;
    size_t t;

    if (w->count > SLOTS || w->start >= SLOTS)
        return 1;
    for (day = 0; day < w->count; day++)
        for (t = 0; t < DAY; t++)
            if (!within_limits(w->rates[place_of(w, day) + t]))
                return 1;
    right = *w;
    set_sums(&right);
    return memcmp(w->sums, right.sums, sizeof right.sums) != 0;
}

void held_days(const ginghamowl_rolling_window *w, int32_t *rates)
{
    uint64_t day;
    size_t t;

    for (day = 0; day < w->count; day++)
        for (t = 0; t < DAY; t++)
            rates[day * DAY + t] = w->rates[place_of(w, day) + t];
}

int month_at(const uint8_t *history, size_t place)
{
    return (int16_t)(history[2 * place] << 8 | history[2 * place + 1]);
}

void set_month(uint8_t *history, size_t place, int month)
{
    history[2 * place] = (uint8_t)((unsigned)month >> 8);
    history[2 * place + 1] = (uint8_t)month;
}
