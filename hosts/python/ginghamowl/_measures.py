"""What the rules of _plausible measure of a case, of the months that give its UFR, and of the dates of both.

A measure is a number, with the place that it is of where it has one; None where there is nothing to measure.
"""

from collections.abc import Callable, Sequence
from dataclasses import dataclass
from datetime import date
from fractions import Fraction
from itertools import pairwise
from statistics import median
from typing import NamedTuple

from ._case import FINER, Case, DaysForm
from ._shown import decimal_text, rate_percent

PER_STEP = {DaysForm.TWO_BYTES: 1, DaysForm.FOUR_BYTES: FINER}  # how many of a rate's own unit a step of 0.00001 is


@dataclass(frozen=True)
class Looked:
    """What is looked at: an accepted case, or the months that a UFR is found from, oldest first, or both.

    A sheet may tell the dates of the days, and the newest month: 12 times its year, and the months since January.
    """

    case: Case | None = None
    months: Sequence[int] | None = None
    dates: Sequence[date] | None = None
    newest_month: int | None = None


class At(NamedTuple):
    """A number, and the words for the place that it is of."""

    value: int | Fraction
    place: str


Number = int | Fraction
Measured = Number | At | None
OfCase = Callable[[Case], Measured]


# ---------------------------------------------------------------- rates

def in_steps(rate: int, case: Case) -> Fraction:
    return Fraction(rate, PER_STEP[case.days_form])


def mean_rates(case: Case) -> list[Fraction]:
    """The mean of each term over the days, in steps."""
    return [in_steps(sum(rates), case) / len(case.days) for rates in zip(*case.days)]


def lowest_mean_rate(case: Case) -> Fraction:
    return min(mean_rates(case))


def mean_rate_farthest_from_0(case: Case) -> Fraction:
    return max(map(abs, mean_rates(case)))


def last_decimals(form: DaysForm, few_too: bool) -> OfCase:
    """The least share of a day's rates that do not end in a 0, in this form: few where a program wrote fewer decimals than its cells
    have. Days of less than ten different rates may end in zeros by themselves; where all days are so, they are judged as one, or not."""
    def measure(case: Case) -> At | None:
        if case.days_form is not form:
            return None
        shares = [(last_decimal_share(rates), day) for day, rates in enumerate(case.days, 1) if len(set(rates)) >= 10]
        if shares:
            return At(min(shares)[0], f" on day {min(shares)[1]}")
        return At(last_decimal_share([rate for rates in case.days for rate in rates]), "") if few_too else None
    return measure


def last_decimal_share(rates: Sequence[int]) -> Fraction:
    return Fraction(sum(rate % 10 != 0 for rate in rates), len(rates))


def from_median(case: Case) -> At | None:
    """How far a rate is from the median of its term over the days, in steps, at most. Two days have no median of their own."""
    if len(case.days) < 3:
        return None
    twice = [int(2 * median(rates)) for rates in zip(*case.days)]
    return farthest(case, [[abs(2 * rate - other) for rate, other in zip(day, twice)] for day in case.days])


def from_neighbours(case: Case) -> At:
    """How far a rate of the terms 2 to 59 is from the mean of the two beside it, in steps, at most."""
    return farthest(case, [[0, *(abs(2 * rate - before - after) for before, rate, after in zip(day, day[1:], day[2:]))]
                           for day in case.days])


def from_only_neighbour(case: Case) -> At:
    """How far a rate of the first or the last term is from the one beside it, in steps, at most."""
    return farthest(case, [[2 * abs(day[0] - day[1]), *[0] * (len(day) - 2), 2 * abs(day[-1] - day[-2])] for day in case.days])


def farthest(case: Case, distances: list[list[int]]) -> At:
    """The first of the largest distances of the rates, term by term of each day, which are given twice and in the rates' own unit."""
    largest = [max(found) for found in distances]
    day = largest.index(max(largest))
    place = distances[day].index(largest[day])
    per_step, rate = PER_STEP[case.days_form], case.days[day][place]
    percent = decimal_text(rate, 1_000 * per_step)
    return At(Fraction(largest[day], 2 * per_step), f" (term {place + 1} of day {day + 1} is {percent} %)")


def flat_days(case: Case) -> At | None:
    """How many days have one rate at all terms, beside days that have not: a vendor's day of zeros, or of one value."""
    flat = [day for day, rates in enumerate(case.days, 1) if len(set(rates)) == 1]
    return At(len(flat), f" (day {flat[0]})" if flat else "") if len(flat) < len(case.days) else None


def repeated_days(case: Case) -> At:
    """How many days have the rates of an earlier one."""
    days = list(case.days)
    again = [(day, days.index(rates)) for day, rates in enumerate(days) if rates in days[:day]]
    return At(len(again), f" (day {again[0][0] + 1} repeats day {again[0][1] + 1})" if again else "")


# ---------------------------------------------------------------- flows

def between_zeros(flows: Sequence[int]) -> Sequence[int]:
    """The flows from the first that is not 0 to the last: a sheet of fixed length has zeros at its ends."""
    held = [place for place, flow in enumerate(flows) if flow]
    return flows[held[0]:held[-1] + 1] if held else ()


def first_behind_zeros(flows: Sequence[int]) -> At | None:
    """The first flow that is not 0 to the largest, where the list begins with 0. A list of few flows may begin anywhere, and so may one
    that has a year without any further on: single bonds pay so, and neither pensions nor coupons do."""
    held = between_zeros(flows)
    if flows[0] or len(held) < 10 or 0 in held:
        return None
    return At(Fraction(held[0], max(held)), f" (term {flows.index(held[0]) + 1})")


def last_to_largest(flows: Sequence[int]) -> Fraction | None:
    """The last flow to the largest. A list of few flows may end anywhere."""
    held = between_zeros(flows)
    return Fraction(held[-1], max(held)) if len(held) >= 5 else None


def last_step(flows: Sequence[int]) -> int | None:
    """What the last flow is above the one before it, in euros."""
    held = between_zeros(flows)
    return held[-1] - held[-2] if len(held) > 1 else None


def largest_step(flows: Sequence[int]) -> At | None:
    """The largest ratio of two flows, one behind the other, of which the larger is at least 2 % of the largest of all."""
    pairs = [(Fraction(max(pair), min(pair)), -term) for term, pair in enumerate(pairwise(flows), 1)
             if min(pair) and 50 * max(pair) >= max(flows)]
    return At(max(pairs)[0], f" (terms {-max(pairs)[1]} and {1 - max(pairs)[1]})") if pairs else None


def beside_neighbours(pick: Callable[[list[Fraction]], Fraction]) -> Callable[[Sequence[int]], Fraction | None]:
    """The largest or smallest ratio of a flow, other than the last, to the nearer of its neighbours."""
    def measure(flows: Sequence[int]) -> Fraction | None:
        held, ratios = between_zeros(flows), []
        for place in range(len(held) - 1):
            around = [Fraction(held[place], flow) for flow in (*held[max(0, place - 1):place], held[place + 1]) if flow]
            ratios += [min(around, key=lambda ratio: max(ratio, 1 / ratio) if ratio else 10 ** 9)] if around else []
        return pick(ratios) if ratios else None
    return measure


def stands_twice(numbers: Sequence[int]) -> At:
    """How many numbers the longest run has that stands twice, with three different numbers in it, and from which places on. A run
    that is a shorter one over and over, as a ladder of bonds is, does not count."""
    longest = At(0, "")
    for shift in range(1, len(numbers)):
        start = 0
        while start + shift < len(numbers):
            length = same_from(numbers, start, shift)
            run = numbers[start:start + length]
            if length > longest.value and len(set(run)) > 2 and not is_over_and_over(run):
                longest = At(length, f" (from {start + 1} on, and again from {start + shift + 1} on)")
            start += max(length, 1)
    return longest


def same_from(numbers: Sequence[int], start: int, shift: int) -> int:
    """How many numbers from a place on are those that stand `shift` places behind them, without an overlap of the two runs."""
    length = 0
    while length < shift and start + shift + length < len(numbers) and numbers[start + length] == numbers[start + shift + length]:
        length += 1
    return length


def is_over_and_over(run: Sequence[int]) -> bool:
    """Whether a run begins with a shorter one, twice or more, and goes on with it to the end."""
    return any(run[:-shift] == run[shift:] for shift in range(1, len(run) // 2 + 1))


def largest_of_many(flows: Sequence[int]) -> Fraction | None:
    """The largest of many flows to their sum; of few, one may be most of it."""
    held = [flow for flow in flows if flow]
    return Fraction(max(held), sum(held)) if len(held) >= 10 else None


# ---------------------------------------------------------------- money

def amounts(case: Case) -> int:
    """All amounts that are assets; the currency exposure is none."""
    held = case.amounts
    return (held.mature + held.emerging + held.private_equity + held.property + held.commodities + held.credit + held.cash)


def equity_losses(case: Case) -> list[int]:
    """What each of the four classes of S2 loses, in tenths of a cent: a euro times a thousandth is one."""
    held, shocks = case.amounts, case.shocks
    return [held.mature * shocks.mature_fall, held.emerging * shocks.emerging_fall, held.private_equity * shocks.private_fall,
            held.property * shocks.property_fall]


def equity_correlation(case: Case) -> int | None:
    """The correlation between the four classes of S2; None where fewer than two of them lose anything, so that it changes nothing."""
    return case.shocks.equity_correlation if sum(loss > 0 for loss in equity_losses(case)) > 1 else None


def bonds_and_cash(case: Case) -> int:
    return sum(case.bonds) + case.amounts.cash


def pension_a_head(case: Case) -> Fraction:
    return Fraction(sum(case.pension), case.people.heads)


def bonds_to_pensions(case: Case) -> Fraction | None:
    return to_pensions(sum(case.bonds), case)


def amounts_to_pensions(case: Case) -> Fraction | None:
    return to_pensions(amounts(case), case)


def to_pensions(money: int, case: Case) -> Fraction | None:
    """So much money to the sum of the pension flows; None where there is none of either."""
    pensions = sum(case.pension)
    return Fraction(money, pensions) if money and pensions else None


def share(name: str) -> OfCase:
    """An amount to all assets, bonds as the sum of their flows; None where there is nothing of it."""
    def measure(case: Case) -> Fraction | None:
        amount, assets = getattr(case.amounts, name), sum(case.bonds) + amounts(case)
        return Fraction(amount, assets) if amount and assets else None
    return measure


def coverage(case: Case) -> Fraction | None:
    """Assets to liabilities, in hundredths."""
    liabilities = worth(case.pension, case)
    return Fraction(round(100 * (worth(case.bonds, case) + amounts(case)) / liabilities), 100) if liabilities else None


def worth(flows: Sequence[int], case: Case) -> float:
    """The flows at the mean rates, those beyond term 60 at its rate: near enough to see a slip of a factor."""
    growths = [1 + float(rate) / 100_000 for rate in mean_rates(case)]
    return sum(flow / growths[min(term, len(growths)) - 1] ** term for term, flow in enumerate(flows, 1))


# ---------------------------------------------------------------- people, dates, months

def age_gap(case: Case) -> int:
    return case.people.pension_age - case.people.mean_age


def days_spanned(looked: Looked) -> int | None:
    """The calendar days from the first date of the days to the last."""
    return (max(looked.dates) - min(looked.dates)).days if looked.dates else None


def months_behind(looked: Looked) -> int | None:
    """The calendar months from the newest month of the history to the month of the last day; below 0 where that comes first."""
    if not looked.dates or looked.newest_month is None:
        return None
    last = max(looked.dates)
    return 12 * last.year + last.month - 1 - looked.newest_month


def ufr_found(months: Sequence[int]) -> int:
    """The mean of the months rounded to the nearest 100 steps, halves upward."""
    return 100 * ((sum(months) + 50 * len(months)) // (100 * len(months)))


def different_months(months: Sequence[int]) -> int:
    return len(set(months))


def largest_move(months: Sequence[int]) -> At:
    """How far a month is from the month before it, in steps, at most."""
    return max((At(abs(now - before), f" (month {place} is {rate_percent(now)}, the month before it {rate_percent(before)})")
                for place, (before, now) in enumerate(pairwise(months), 2)), key=lambda found: found.value)


def from_nearer_month(months: Sequence[int]) -> At:
    """How far a month, neither the first nor the last, is from the nearer of the two beside it, in steps, at most."""
    return max((At(min(abs(now - before), abs(now - after)), f" (month {place} is {rate_percent(now)})")
                for place, (before, now, after) in enumerate(zip(months, months[1:], months[2:]), 2)), key=lambda found: found.value)
