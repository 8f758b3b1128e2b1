"""The version, and the refusals and the verdicts in words.

Written by hosts/words from hosts/words.toml and VERSION: change those, and run it.
"""

VERSION = "0.10.0"

NO_REFUSAL = "no refusal has this number"

#: What each refusal says: what is wrong, and the limit.
SENTENCES: dict[int, str] = {
    1: "the file is too short; its map, and each field that the map announces, must be whole",
    2: "bytes follow the last field; the file must end there",
    3: "the map has a wrong bit; bits 2, 5 and 6 and exactly one of bits 1 and 7 must be set, and bits 9 to "
        "15 must not; a case that is handed in must have rates of 2 or 4 bytes",
    4: "the number of days is out of limits; it must be 1 to 70, with 60 rates each",
    5: "a zero rate is out of limits; each must be -1,000 to 10,000 steps of 0.00001, or in four bytes, "
        "which a rolling window has not, -100,000 to 1,000,000 steps of 0.0000001, which is -1 % to 10 %",
    6: "a one-year forward rate is out of limits; t x s(t) - (t - 1) x s(t-1), with s(t) the sum of term t's "
        "rates over the n days, must be -2,000 x n to 12,000 x n steps of 0.00001 at each term, or in four "
        "bytes -200,000 x n to 1,200,000 x n steps of 0.0000001, which is -2 % to 12 %",
    7: "the number of flows is out of limits; there must be 1 to 120 pension flows, and 1 to 60 bond flows "
        "where their bit is set",
    8: "a flow is out of limits; each must be at most 100,000,000 euros",
    9: "the UFR is out of limits; it must be at most 5,000 steps of 0.00001, 5 %",
    10: "an amount is out of limits; each must be at most 100,000,000,000 euros",
    11: "a shock is out of limits; shifts must be at most 1,000 steps, falls, spread rise and correlations at "
        "most 1,000 thousandths, the credit spread at most 10,000 steps and the credit duration at most 500 "
        "tenths of a year",
    12: "the head count or an age is out of limits; heads must be 1 to 1,000,000, and ages at most 1,200 "
        "months",
    13: "a lent buffer is too short; the buffers for factors and for rates must have at least 240 entries",
    14: "the lent buffer is too short for the case; it must have at least as many bytes as the case's "
        "shortest file",
    15: "the rolling window is full; it must hold at most 69 days for one to be added",
    16: "the rolling window is empty; it must hold a day for the oldest to be dropped",
    17: "the history of months or its start index is out of limits; the history must have 240 bytes, 120 "
        "months of two, and the start index must be at most 119",
    18: "a month of the history is out of limits; each must be -1,000 to 10,000 steps of 0.00001, -1 % to 10 "
        "%",
    19: "the UFR that the history gives is out of limits; the mean of its 120 months, rounded to the nearest "
        "100 steps, must be 0 to 5,000 steps of 0.00001, 0 % to 5 %",
    27: "the rolling window is damaged; its count must be at most 70, its start at most 69, each rate of a "
        "day held -1,000 to 10,000 steps, and each sum that of the days held",
}

#: The verdicts as the listing writes them.
VERDICT_WORDS: dict[int, str] = {
    1: "DEKKINGSTEKORT",
    2: "RESERVETEKORT",
    3: "VRIJ VERMOGEN",
    4: "ONBESLIST",
}

#: What each verdict says.
VERDICT_SENTENCES: dict[int, str] = {
    1: "the assets are below 105 percent of the liabilities",
    2: "the assets reach 105 percent of the liabilities, but not the liabilities and the buffer S together",
    3: "the assets reach 105 percent of the liabilities, and also the liabilities and the buffer S together",
    4: "undecided: a border lies inside a bracket, so the rounded figures cannot tell on which side the fund "
        "is",
}
