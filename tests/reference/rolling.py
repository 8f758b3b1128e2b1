"""A second implementation of what docs/METHOD.md says of a rolling window of days, over that of a case file in reference.py.

Written without the engine's code, to be run beside the engine. What a window holds is a plain list of days, oldest first; the struct of a
host, a ring of slots, is taken apart into that list, and put together from it. Of "The rolling window stays with two-byte days." it has a
reading that the definitions share (decision 193): a case with four-byte days is checked by its own limits, and then the window's two-byte
days take the place of its own.
"""

from dataclasses import replace
from typing import NamedTuple

from tests.reference.reference import (Case, Given, Refused, Rounded, buffers, case_of, check_case, check_day_count, check_growths,
                                       check_rates, encode, needed_fields, rates_within_limits, read, refuse_unless, sums)

MOST_DAYS, TERMS = 70, 60
RATES = MOST_DAYS * TERMS


# ---------------------------------------------------------------- a list of days

def added(days, day):
    """The days with one more; raises Refused."""
    refuse_unless(len(days) < MOST_DAYS, 15)  # "15 for a day added to a window of 70, before its rates are looked at"
    check_rates(day)  # "Adding checks the day's 60 rates against the limits of refusal 5."
    return [*days, day]


def dropped(days):
    """The days without the oldest; raises Refused."""
    refuse_unless(days, 16)  # "16 for a drop from an empty window"
    return days[1:]


# ---------------------------------------------------------------- a window as a host holds it

class Window(NamedTuple):
    """A ring of 70 slots: day i, counted from the oldest, stands in slot (start + i) % 70. Slots that are not held are free. A host may
    hand in any numbers."""
    count: int  # "The new window keeps up to 70 days"
    start: int  # the slot of the oldest day, which is the "place"
    rates: list  # slot by slot, 60 zero rates each
    sums: list  # "stored beside them, the sum per term"


class Changed(NamedTuple):
    refusal: int  # 0 where the window is changed
    window: Window


def rates_at(slot):
    """Where the rates of a slot stand."""
    return slice(TERMS * slot, TERMS * (slot + 1))


def days_held(window):
    """The days, "oldest first"."""
    return [window.rates[rates_at(at % MOST_DAYS)] for at in range(window.start, window.start + window.count)]


def placed(days, start, rates):
    """The window of these days, the oldest in that slot; slots that are not held keep these rates. "each stored sum is that of the days
    held"."""
    rates = list(rates)
    for at, day in enumerate(days, start):
        rates[rates_at(at % MOST_DAYS)] = day
    return Window(len(days), start, rates, sums(days)[1:])


def check_window(window):
    """"ahead of all, also of 13, 27 for a window handed in with a count or place out of range, a held rate out of limits or a wrong
    sum"."""
    refuse_unless(window.count <= MOST_DAYS and window.start < MOST_DAYS, 27)
    days = days_held(window)
    refuse_unless(all(map(rates_within_limits, days)), 27)
    refuse_unless(window.sums == sums(days)[1:], 27)


def damaged(window: Window) -> bool:
    """Whether 27 refuses the window."""
    try:
        check_window(window)
    except Refused:
        return True
    return False


EMPTY = placed([], 0, [0] * RATES)


def add(window: Window, day: list) -> Changed:
    """Adds a day, in the slot behind the newest."""
    try:
        check_window(window)
        days = added(days_held(window), day)
    except Refused as refused:
        return Changed(refused.args[0], window)  # "A refused call changes nothing."
    return Changed(0, placed(days, window.start, window.rates))


def drop(window: Window) -> Changed:
    """Drops the oldest day; the next one is the oldest then."""
    try:
        check_window(window)
        days = dropped(days_held(window))
    except Refused as refused:
        return Changed(refused.args[0], window)
    return Changed(0, placed(days, (window.start + 1) % MOST_DAYS, window.rates))


# ---------------------------------------------------------------- its valuation

class Valued(NamedTuple):
    refusal: int  # 0 where the window, or the file, is valued
    rounded: Rounded | None  # the figures and the verdict then
    factors: list  # what the lent buffers hold afterwards
    rates: list


def check_valuation(window, given, factors, rates):
    """"Valuation checks 13, then the case's own numbers ..., its own days and 6 included, then 4 for an empty window, then 6 for its
    days."; "ahead of all, also of 13, 27"."""
    check_window(window)
    refuse_unless(len(factors) >= 240 and len(rates) >= 240, 13)
    check_case(given)
    days = days_held(window)
    check_day_count(len(days))
    check_growths(days)


def case_with(given: Given, days: list) -> Case:
    """An "accepted case's other fields", with these days, which have two bytes whatever those of the case have."""
    return replace(case_of(given), days=days, rate_bytes=2)


def value(window: Window, given: Given, factors: list, rates: list) -> Valued:
    """Values a window with a case into lent buffers that hold these numbers: "a non-empty window, valued with an accepted case's other
    fields, gives what the file with these days gives"."""
    try:
        check_valuation(window, given, factors, rates)
    except Refused as refused:
        return Valued(refused.args[0], None, factors, rates)
    case = case_with(given, days_held(window))
    rounded = Rounded(read(encode(case, *needed_fields(case))))
    new_factors, new_rates = buffers(rounded)
    return Valued(0, rounded, new_factors + factors[240:], new_rates + rates[240:])
