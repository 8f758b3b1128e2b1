/* The structs have no surprises: their sizes, and where their parts begin. Checked when this file is compiled; no topic runs it. */
#include <stddef.h>

#include "ginghamowl.h"

_Static_assert(sizeof(ginghamowl_bracket) == 16, "two numbers of 8 bytes");
_Static_assert(sizeof(ginghamowl_figures) == 160, "ten brackets");
_Static_assert(offsetof(ginghamowl_figures, s) == 144, "S is the last");
_Static_assert(sizeof(ginghamowl_valuation) == 168, "two bytes, padded to 8, and the figures");
_Static_assert(offsetof(ginghamowl_valuation, verdict) == 1, "the verdict after the refusal");
_Static_assert(offsetof(ginghamowl_valuation, figures) == 8, "the figures after both");
_Static_assert(sizeof(ginghamowl_engine_version) == 44, "three numbers of 4 bytes and 32 bytes");
_Static_assert(offsetof(ginghamowl_engine_version, kit) == 12, "the kit after the numbers");
_Static_assert(sizeof(ginghamowl_part) == 16, "two sizes");
_Static_assert(sizeof(ginghamowl_point) == 24, "a byte, padded to 8, and two doubles");
_Static_assert(sizeof(ginghamowl_amounts) == 64, "eight amounts");
_Static_assert(sizeof(ginghamowl_shocks) == 104, "thirteen shocks");
_Static_assert(offsetof(ginghamowl_shocks, equity_correlation) == 96, "the correlation between the equity classes is the last");
_Static_assert(sizeof(ginghamowl_people) == 24, "heads and two ages");
_Static_assert(sizeof(ginghamowl_case_fields) == 208, "the bytes of a rate, the UFR and the three above");
_Static_assert(offsetof(ginghamowl_case_fields, ufr) == 8, "the UFR after the bytes of a rate");
_Static_assert(offsetof(ginghamowl_case_fields, people) == 184, "the people are the last");
_Static_assert(sizeof(ginghamowl_saved) == 16, "a byte, padded to 8, and a size");
_Static_assert(offsetof(ginghamowl_saved, written) == 8, "the count after the refusal");
_Static_assert(sizeof(ginghamowl_rolling_window) == 8896, "two numbers, 4,200 rates of 2 bytes and 60 sums");
_Static_assert(offsetof(ginghamowl_rolling_window, start) == 8, "the start after the count");
_Static_assert(offsetof(ginghamowl_rolling_window, rates) == 16, "the rates after both");
_Static_assert(offsetof(ginghamowl_rolling_window, sums) == 8416, "the sums are the last");
_Static_assert(sizeof(ginghamowl_day) == 240, "60 rates of 4 bytes");
_Static_assert(sizeof(ginghamowl_changed_window) == 8904, "a byte, padded to 8, and the window");
_Static_assert(offsetof(ginghamowl_changed_window, window) == 8, "the window after the refusal");
_Static_assert(sizeof(ginghamowl_ufr) == 16, "a byte, padded to 8, and the UFR");
_Static_assert(offsetof(ginghamowl_ufr, ufr) == 8, "the UFR after the refusal");
