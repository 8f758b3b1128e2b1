"""A second implementation of what docs/METHOD.md says of the UFR from a history of months, over that of a case file in reference.py.

Written without the engine's code, to be run beside the engine; from the readings of decisions 168 to 170 and 172 too, which it shares with
the definitions. By another such reading the months keep their two bytes, whichever days field the file has. Whole numbers and fractions
only; no float occurs.
"""

from fractions import Fraction
from functools import lru_cache
from math import floor
from typing import NamedTuple

from tests.reference import reference
from tests.reference.reference import Refused, Rounded, buffers, read, read_fields, refuse_unless, twos_complement
from tests.reference.rolling import Valued

MONTHS = 120  # "a moving mean of 120 month-end forward rates"
HISTORY = 2 * MONTHS  # bytes: "120 numbers of two bytes"
LEAST_MONTH, MOST_MONTH = -1_000, 10_000  # steps
MOST_UFR = 5_000
UFR_BIT = 1  # of the map of a case file: "Bit 0, UFR: 2 bytes"


# ---------------------------------------------------------------- the months and their mean

def months_of(history):
    """"numbers of two bytes, two's complement, big-endian like all our bytes", from the first byte on."""
    return [twos_complement(int.from_bytes(history[at:at + 2], "big"), 2) for at in range(0, len(history), 2)]


def oldest_first(start, months):
    """The months "in a ring with a start index of 0 to 119", which is the place of the oldest."""
    return months[start:] + months[:start]


def sum_from_first_byte(history):
    """"The ring is summed from its first byte on"."""
    return sum(months_of(history))


def sum_from_oldest(history, start):
    """"the sum taken from the oldest month", which "the result equals"."""
    return sum(oldest_first(start, months_of(history)))


def rounded_mean(total):
    """"The UFR is their mean rounded to the nearest 100 steps, halves upward": of the sum of 120 months, in steps. Half a hundred more,
    then down: so halves go upward below 0 as well."""
    hundreds = Fraction(total, MONTHS) / 100
    return 100 * floor(hundreds + Fraction(1, 2))


def rounded_ufr(history):
    return rounded_mean(sum_from_first_byte(history))


# ---------------------------------------------------------------- its checks

class Ufr(NamedTuple):
    refusal: int  # 0 where the UFR is found
    ufr: int  # in steps; 0 for a refusal


def months_within_limits(months):
    return all(LEAST_MONTH <= month <= MOST_MONTH for month in months)


def check_months(history, start):
    """"17 for a history that isn't 240 bytes or a start index above 119; 18 for a month out of limits, after 17; 19 for a rounded UFR
    outside 0 to 5,000, after 18"."""
    refuse_unless(len(history) == HISTORY and start < MONTHS, 17)
    refuse_unless(months_within_limits(months_of(history)), 18)
    refuse_unless(0 <= rounded_ufr(history) <= MOST_UFR, 19)


def ufr_of(history: bytes, start: int) -> Ufr:
    try:
        check_months(history, start)
    except Refused as refused:
        return Ufr(refused.args[0], 0)
    return Ufr(0, rounded_ufr(history))


# ---------------------------------------------------------------- a valuation with months

def with_ufr_field(file, ufr):
    """The named file: "The UFR found is used as if it stood in the file's UFR field". The UFR goes behind the map, in the place of the
    file's own or, where it has none, between the map and the next field, and its bit stands."""
    bits = int.from_bytes(file[:2], "big")
    others = file[4:] if bits & UFR_BIT else file[2:]
    return (bits | UFR_BIT).to_bytes(2, "big") + ufr.to_bytes(2, "big") + others


def check_valuation(file, history, start, factors_length, rates_length):
    """The file's own order, "13; then the map ...; then 6"; then "all three after the file's own numbers"."""
    refuse_unless(factors_length >= 240 and rates_length >= 240, 13)
    read_fields(file)
    check_months(history, start)


def refusal(file: bytes, history: bytes, start: int, factors_length: int, rates_length: int) -> int:
    """By the lengths of the lent buffers; 0 where the file is valued."""
    try:
        check_valuation(file, history, start, factors_length, rates_length)
    except Refused as refused:
        return refused.args[0]
    return 0


@lru_cache(maxsize=1_000)
def worked(file):
    """The rounded working of an accepted file, once for all histories that name this file: they give 51 UFRs at most."""
    return Rounded(read(file))


def value(file: bytes, history: bytes, start: int, factors: list, rates: list) -> Valued:
    """Values a file with months into lent buffers that hold these numbers. "A refusal ... changes nothing lent"; "later entries keep
    their content"."""
    number = refusal(file, history, start, len(factors), len(rates))
    if number:
        return Valued(number, None, factors, rates)
    rounded = worked(with_ufr_field(file, rounded_ufr(history)))
    new_factors, new_rates = buffers(rounded)
    return Valued(0, rounded, new_factors + factors[240:], new_rates + rates[240:])


def listing(file: bytes, history: bytes, start: int) -> bytes:
    """What is printed: that of the named file, or R and the number."""
    number = refusal(file, history, start, 240, 240)
    return b"R %d\n" % number if number else reference.listing(with_ufr_field(file, rounded_ufr(history)))
