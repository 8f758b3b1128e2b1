/* Rolling windows, and one call with a window: what it changes, and what it leaves as it was. */
#ifndef ROLLING_H
#define ROLLING_H

#include "cases.h"

/* From -900 upwards, a little uneven, as the days of largest_case. Any list of such days passes refusal 6. */
ginghamowl_day numbered_day(size_t number);

/* A day with `first` at term 1 and `others` at all later terms. */
ginghamowl_day flat_day(int32_t first, int32_t others);

/* A window of numbered days. Its free slots have rates that no day may have. */
ginghamowl_rolling_window made_window(uint64_t start, uint64_t count);

/* ---------------------------------------------------------------- a day added or dropped */

int same_window(const ginghamowl_rolling_window *w, const ginghamowl_rolling_window *other);

/* The day is added: its slot, the count and the sums change, and nothing else. `w` is then the window with it. */
void adds(ginghamowl_rolling_window *w, ginghamowl_day day);

/* The day is refused, and the window is as it was; likewise drops_not. */
void adds_not(const ginghamowl_rolling_window *w, ginghamowl_day day, uint8_t refusal);

/* The oldest day is dropped: start, count and sums change, and no rate. `w` is then the window without it. */
void drops(ginghamowl_rolling_window *w);

void drops_not(const ginghamowl_rolling_window *w, uint8_t refusal);

/* ---------------------------------------------------------------- a case valued with the days of a window */

/* One call with buffers of these lengths: it gives this refusal, and changes nothing lent; or it is valued as the file is. */
void rolling_value_into(const ginghamowl_rolling_window *w, const held_case *c, uint8_t refusal, size_t factors_length,
                        size_t rates_length);

/* The case is valued with the window's days, into buffers that suffice. */
void rolling_values(const ginghamowl_rolling_window *w, const held_case *c);

/* The valuation is refused with this number; where a buffer is too short, with 13. */
void rolling_values_not(const ginghamowl_rolling_window *w, const held_case *c, uint8_t refusal);

/* ---------------------------------------------------------------- windows that are damaged or not */

/* The window is right: no call refuses it with 27. */
void takes(const ginghamowl_rolling_window *w);

/* Every call refuses the window with 27, whatever else is wrong. */
void takes_not(const ginghamowl_rolling_window *w);

#endif
