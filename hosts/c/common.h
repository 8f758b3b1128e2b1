/* What the test and the fuzzer share: numbers drawn, and what a rolling window and a history of months must hold. */
#ifndef COMMON_H
#define COMMON_H

#include <stddef.h>
#include <stdint.h>

#include "ginghamowl.h"

enum { DAY = GINGHAMOWL_DAY_RATES, SLOTS = GINGHAMOWL_WINDOW_DAYS, MONTHS = GINGHAMOWL_HISTORY_MONTHS };

/* Where the numbers of ginghamowl_case_fields stand, which are all of 8 bytes: rate_bytes, the UFR, and those of its structs. */
enum { AT_AMOUNTS = 2, AT_SHOCKS = 10, AT_EQUITY = 22, AT_PEOPLE = 23, FIELDS = 26 };

/* Entry i of a lent buffer before a call. */
#define HELD(i) (UINT64_C(0x5a5a1234abcd0000) + (i))

/* ---------------------------------------------------------------- drawn numbers */

/* Sets the state to the next of xorshift64. No state is 0. */
void advance(uint64_t *state);

/* A number of 48 bits, with the next state. */
uint64_t drawn(uint64_t *state);

/* ---------------------------------------------------------------- rolling windows */

/* Where a held day, counted from the oldest, has its rates. */
size_t place_of(const ginghamowl_rolling_window *w, uint64_t day);

/* Sets the sums to those of the days held. */
void set_sums(ginghamowl_rolling_window *w);

/* Whether a rate in steps of 0.00001, of a day or of a month, is within its limits. */
int within_limits(int32_t rate);

int is_damaged(const ginghamowl_rolling_window *w);

/* The rates of the days held, oldest first. */
void held_days(const ginghamowl_rolling_window *w, int32_t *rates);

/* ---------------------------------------------------------------- histories of months */

int month_at(const uint8_t *history, size_t place);
void set_month(uint8_t *history, size_t place, int month);

#endif
