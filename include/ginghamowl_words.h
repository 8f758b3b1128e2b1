/* The refusals and the verdicts of ginghamowl.h in words.
 * Written by hosts/words from hosts/words.toml and VERSION: change those, and run it. */
#ifndef GINGHAMOWL_WORDS_H
#define GINGHAMOWL_WORDS_H

#include "ginghamowl.h"

static inline const char *ginghamowl_refusal_sentence(unsigned number)
{
    switch (number) {
    case GINGHAMOWL_REFUSED_ENDS_EARLY:
        return "the file is too short; its map, and each field that the map announces, must be "
               "whole";
    case GINGHAMOWL_REFUSED_BYTES_FOLLOW:
        return "bytes follow the last field; the file must end there";
    case GINGHAMOWL_REFUSED_MAP:
        return "the map has a wrong bit; bits 2, 5 and 6 and exactly one of bits 1 and 7 must be "
               "set, and bits 9 to 15 must not; a case that is handed in must have rates of 2 or 4 "
               "bytes";
    case GINGHAMOWL_REFUSED_DAY_COUNT:
        return "the number of days is out of limits; it must be 1 to 70, with 60 rates each";
    case GINGHAMOWL_REFUSED_RATE:
        return "a zero rate is out of limits; each must be -1,000 to 10,000 steps of 0.00001, or in "
               "four bytes, which a rolling window has not, -100,000 to 1,000,000 steps of "
               "0.0000001, which is -1 % to 10 %";
    case GINGHAMOWL_REFUSED_GROWTH:
        return "a one-year forward rate is out of limits; t x s(t) - (t - 1) x s(t-1), with s(t) "
               "the sum of term t's rates over the n days, must be -2,000 x n to 12,000 x n steps "
               "of 0.00001 at each term, or in four bytes -200,000 x n to 1,200,000 x n steps of "
               "0.0000001, which is -2 % to 12 %";
    case GINGHAMOWL_REFUSED_FLOW_COUNT:
        return "the number of flows is out of limits; there must be 1 to 120 pension flows, and 1 "
               "to 60 bond flows where their bit is set";
    case GINGHAMOWL_REFUSED_FLOW:
        return "a flow is out of limits; each must be at most 100,000,000 euros";
    case GINGHAMOWL_REFUSED_UFR:
        return "the UFR is out of limits; it must be at most 5,000 steps of 0.00001, 5 %";
    case GINGHAMOWL_REFUSED_AMOUNT:
        return "an amount is out of limits; each must be at most 100,000,000,000 euros";
    case GINGHAMOWL_REFUSED_SHOCK:
        return "a shock is out of limits; shifts must be at most 1,000 steps, falls, spread rise "
               "and correlations at most 1,000 thousandths, the credit spread at most 10,000 steps "
               "and the credit duration at most 500 tenths of a year";
    case GINGHAMOWL_REFUSED_PEOPLE:
        return "the head count or an age is out of limits; heads must be 1 to 1,000,000, and ages "
               "at most 1,200 months";
    case GINGHAMOWL_REFUSED_BUFFER:
        return "a lent buffer is too short; the buffers for factors and for rates must have at "
               "least 240 entries";
    case GINGHAMOWL_REFUSED_SAVED_BUFFER:
        return "the lent buffer is too short for the case; it must have at least as many bytes as "
               "the case's shortest file";
    case GINGHAMOWL_REFUSED_ROLLING_FULL:
        return "the rolling window is full; it must hold at most 69 days for one to be added";
    case GINGHAMOWL_REFUSED_ROLLING_EMPTY:
        return "the rolling window is empty; it must hold a day for the oldest to be dropped";
    case GINGHAMOWL_REFUSED_HISTORY:
        return "the history of months or its start index is out of limits; the history must have "
               "240 bytes, 120 months of two, and the start index must be at most 119";
    case GINGHAMOWL_REFUSED_MONTH:
        return "a month of the history is out of limits; each must be -1,000 to 10,000 steps of "
               "0.00001, -1 % to 10 %";
    case GINGHAMOWL_REFUSED_MONTHS_UFR:
        return "the UFR that the history gives is out of limits; the mean of its 120 months, "
               "rounded to the nearest 100 steps, must be 0 to 5,000 steps of 0.00001, 0 % to 5 %";
    case GINGHAMOWL_REFUSED_DAMAGED:
        return "the rolling window is damaged; its count must be at most 70, its start at most 69, "
               "each rate of a day held -1,000 to 10,000 steps, and each sum that of the days held";
    default:
        return "no refusal has this number";
    }
}

static inline const char *ginghamowl_verdict_word(unsigned number)
{
    switch (number) {
    case GINGHAMOWL_DEKKINGSTEKORT:
        return "DEKKINGSTEKORT";
    case GINGHAMOWL_RESERVETEKORT:
        return "RESERVETEKORT";
    case GINGHAMOWL_VRIJ_VERMOGEN:
        return "VRIJ VERMOGEN";
    case GINGHAMOWL_ONBESLIST:
        return "ONBESLIST";
    default:
        return "no verdict has this number";
    }
}

static inline const char *ginghamowl_verdict_sentence(unsigned number)
{
    switch (number) {
    case GINGHAMOWL_DEKKINGSTEKORT:
        return "the assets are below 105 percent of the liabilities";
    case GINGHAMOWL_RESERVETEKORT:
        return "the assets reach 105 percent of the liabilities, but not the liabilities and the "
               "buffer S together";
    case GINGHAMOWL_VRIJ_VERMOGEN:
        return "the assets reach 105 percent of the liabilities, and also the liabilities and the "
               "buffer S together";
    case GINGHAMOWL_ONBESLIST:
        return "undecided: a border lies inside a bracket, so the rounded figures cannot tell on "
               "which side the fund is";
    default:
        return "no verdict has this number";
    }
}

#endif
