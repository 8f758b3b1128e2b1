"""Warnings: numbers that are accepted, but likelier a slip than meant. A warning never refuses anything.

RULES is one table, over the case whatever it came from, and over the months that its UFR is found from. Its thresholds are the
project's: wide enough for a usual fund, narrow enough for the slips that each rule names.
"""

from collections.abc import Callable, Sequence
from dataclasses import dataclass
from datetime import date
from enum import Enum
from fractions import Fraction

from . import _measures as measures
from ._case import Case, DaysForm
from ._measures import At, Looked, Measured, Number
from ._months import History
from ._shown import age, counted, euros, mean_percent, rate_percent, share_percent, six_decimals, years


class About(Enum):
    """What a warning is said of."""

    CASE = "case"
    MONTHS = "months"


@dataclass(frozen=True)
class Rule:
    """Warns where what is measured is below the least or above the most. Equality does not warn."""

    key: str
    about: About
    measure: Callable[[Looked], Measured]
    say: Callable[[Number], str]
    slip: str
    least: Number | None = None
    most: Number | None = None

    def warning(self, looked: Looked) -> str | None:
        found = self.measure(looked)
        if found is None:
            return None
        value, place = found if isinstance(found, At) else (found, "")
        if self.least is not None and value < self.least:
            return f"{self.key} is {self.say(value)}{place}, below {self.say(self.least)}; {self.slip}"
        if self.most is not None and value > self.most:
            return f"{self.key} is {self.say(value)}{place}, above {self.say(self.most)}; {self.slip}"
        return None


# ---------------------------------------------------------------- what a rule measures

Limits = tuple[Number | None, Number | None]


def of_case(key: str, measure: Callable[[Case], Measured], say: Callable[[Number], str], slip: str, limits: Limits) -> Rule:
    return Rule(key, About.CASE, lambda looked: measure(looked.case) if looked.case else None, say, slip, *limits)


def of_flows(name: str, key: str, measure: Callable[[Sequence[int]], Measured], say: Callable[[Number], str], slip: str,
             limits: Limits) -> Rule:
    return of_case(key.format(f"flows.{name}"), lambda case: measure(getattr(case, name)) if getattr(case, name) else None,
                   say, slip, limits)


def of_months(key: str, measure: Callable[[Sequence[int]], Measured], say: Callable[[Number], str], slip: str,
              limits: Limits) -> Rule:
    return Rule(key, About.MONTHS, lambda looked: measure(looked.months) if looked.months else None, say, slip, *limits)


def of_dates(key: str, measure: Callable[[Looked], Measured], say: Callable[[Number], str], slip: str, limits: Limits) -> Rule:
    return Rule(key, About.CASE, measure, say, slip, *limits)


def of_shock(name: str, least: int, say: Callable[[int], str], slip: str, *held: str) -> Rule:
    """A shock of assets is judged only where the case holds some of them: elsewhere it has no effect."""
    def measure(case: Case) -> int | None:
        return getattr(case.shocks, name) if not held or any(getattr(case.amounts, asset) for asset in held) else None
    return of_case(f"shocks.{name}", measure, say, slip, (least, None))


def of_age(name: str, least: int, slip: str) -> Rule:
    return of_case(f"people.{name}", lambda case: getattr(case.people, name), age, slip, (least, None))


def of_amount(key: str, name: str, limits: Limits) -> Rule:
    return of_case(f"amounts.{key}", measures.share(name), of_assets, FACTOR_SLIP, limits)


def own_ufr(looked: Looked) -> int | None:
    """The UFR of the case, where months do not give another."""
    return looked.case.ufr if looked.case and not looked.months else None


# ---------------------------------------------------------------- how it is said

def times(what: str) -> Callable[[Number], str]:
    return lambda value: f"{six_decimals(value)} times {what}"


def percent_of(what: str) -> Callable[[Number], str]:
    return lambda value: f"{six_decimals(100 * Fraction(value))} % of {what}"


def away(steps: Number) -> str:
    return f"{mean_percent(steps)} away"


def euros_a_head(value: Number) -> str:
    return f"{int(value):,} euros a head"


def calendar_days(value: Number) -> str:
    return f"{value:,} days"


def calendar_months(value: Number) -> str:
    return f"{value} months"


def flows(value: Number) -> str:
    return counted(int(value), ("flows", "flow"))


of_assets = percent_of("all assets")


# ---------------------------------------------------------------- the table

UNIT_SLIP = "was it typed in another unit?"
PERCENT_SLIP = "was a percentage typed in thousandths?"
FACTOR_SLIP = "is a digit missing or one too many, or a month typed for a year?"
SHIFT_SLIP = "were basis points typed as steps, or a fraction as a percentage?"
AGE_SLIP = "were years typed as months?"
EURO_SLIP = "were thousands of euros typed for euros?"
CUT_SLIP = "did a spreadsheet cut off the decimals?"
CELL_SLIP = "is a digit or a decimal mark wrong?"
VENDOR_SLIP = "did a vendor deliver zeros or another curve, or is a decimal mark wrong?"
TWICE_SLIP = "was the list pasted twice?"
LATE_SLIP = "does the list begin a year late, or more?"
EQUITIES = "mature", "emerging", "private_equity", "property"  # whose losses are S2, which the correlation is with
HALF = Fraction(1, 2)  # of the rates; where nothing is cut off, nine of ten have a last decimal
SMALL = Fraction(1, 2_000)  # of all assets: an amount below it hardly matters, unless it is a slip

RULES = [
    Rule("ufr", About.CASE, own_ufr, rate_percent, UNIT_SLIP, least=1_000),
    # Rates.
    of_case("the lowest mean rate of a term in days", measures.lowest_mean_rate, mean_percent,
            "were the rates typed in another unit?", (None, 8_000)),
    of_case("the mean rate of a term in days that is farthest from 0", measures.mean_rate_farthest_from_0, mean_percent,
            "were fractions typed as percentages, or basis points as steps?", (300, None)),
    of_case("the share of rates in days with a fifth decimal (0.001 %)", measures.last_decimals(DaysForm.TWO_BYTES, False),
            percent_of("all"), CUT_SLIP, (HALF, None)),
    of_case("the share of rates in days with a seventh decimal (0.00001 %)", measures.last_decimals(DaysForm.FOUR_BYTES, True),
            percent_of("all"), CUT_SLIP, (HALF, None)),
    of_case("the rate in days that is farthest from the median of its term", measures.from_median, away, VENDOR_SLIP,
            (None, 1_000)),
    of_case("the rate in days that is farthest from the mean of the terms beside it", measures.from_neighbours, away, CELL_SLIP,
            (None, 300)),
    of_case("the rate of term 1 or 60 in days that is farthest from the term beside it", measures.from_only_neighbour, away,
            CELL_SLIP, (None, 1_000)),
    of_case("the number of days with one rate at all terms", measures.flat_days, str, VENDOR_SLIP, (None, 0)),
    of_case("the number of days that repeat another", measures.repeated_days, str, "was a day copied under another date?",
            (None, 0)),
    of_dates("the time from the first date of days to the last", measures.days_spanned, calendar_days, "is a year wrong?",
             (None, 150)),
    of_dates("the time from the newest month of the history to the last date of days", measures.months_behind, calendar_months,
             "is the history of another date than the days?", (-1, 3)),
    # Shocks and people.
    of_shock("up_shift", 100, rate_percent, SHIFT_SLIP),
    of_shock("down_shift", 100, rate_percent, SHIFT_SLIP),
    of_shock("mature_fall", 50, share_percent, PERCENT_SLIP, "mature"),
    of_shock("emerging_fall", 50, share_percent, PERCENT_SLIP, "emerging"),
    of_shock("private_fall", 50, share_percent, PERCENT_SLIP, "private_equity"),
    of_shock("property_fall", 50, share_percent, PERCENT_SLIP, "property"),
    of_shock("currency_fall", 50, share_percent, PERCENT_SLIP, "currency"),
    of_shock("commodities_fall", 50, share_percent, PERCENT_SLIP, "commodities"),
    # These two are often 50 % or more, so that 5 % would miss 50 typed as thousandths.
    of_shock("spread_rise", 100, share_percent, PERCENT_SLIP, "credit"),
    of_shock("correlation", 100, share_percent, PERCENT_SLIP, *EQUITIES),
    # Hardly a fund has less, and 0 is what a host leaves that does not know the number.
    of_case("shocks.equity_correlation", measures.equity_correlation, share_percent,
            "was a percentage typed in thousandths, or left at 0, which gives the smallest buffer?", (250, None)),
    of_shock("spread", 300, rate_percent, SHIFT_SLIP, "credit"),
    of_shock("duration", 10, years, "were years typed as tenths of a year?", "credit"),
    of_age("pension_age", 720, f"{AGE_SLIP[:-1]}, or the two ages swapped?"),
    of_age("mean_age", 180, AGE_SLIP),
    # The members of a closed fund may all be pensioners.
    of_case("people.pension_age less people.mean_age", measures.age_gap, calendar_months, "were the two ages swapped?", (-240, None)),
    # Flows.
    of_case("flows.bonds and amounts.cash together", measures.bonds_and_cash, euros, "were they left out?", (1, None)),
    of_case("the sum of flows.pension", measures.pension_a_head, euros_a_head, EURO_SLIP, (10_000, 2_000_000)),
    of_flows("pension", "the largest flow of {} beside its neighbours", measures.beside_neighbours(max),
             times("the flow beside it"), FACTOR_SLIP, (None, 4)),
    of_flows("pension", "the smallest flow of {} beside its neighbours", measures.beside_neighbours(min),
             times("the flow beside it"), FACTOR_SLIP, (Fraction(1, 4), None)),
    of_flows("pension", "the largest step between two flows of {}", measures.largest_step, times("the other"),
             "are flows missing between them, or digits?", (None, 2)),
    # A fund without pensioners begins with few pensions, and one that has some with more than this, in the first year.
    of_flows("pension", "the first flow of {} behind zeros", measures.first_behind_zeros, percent_of("the largest"), LATE_SLIP,
             (None, Fraction(1, 4))),
    of_flows("pension", "the last flow of {}", measures.last_to_largest, percent_of("the largest"), "was the list cut short?",
             (None, Fraction(1, 20))),
    of_flows("pension", "the last flow of {} less the one before it", measures.last_step, euros,
             "was a total put behind the flows?", (None, 0)),
    of_flows("pension", "the longest run of flows that stands twice in {}", measures.stands_twice, flows, TWICE_SLIP, (None, 3)),
    # Coupons alone may be a small part of a year in which a bond ends.
    of_flows("bonds", "the first flow of {} behind zeros", measures.first_behind_zeros, percent_of("the largest"), LATE_SLIP,
             (None, Fraction(1, 20))),
    of_flows("bonds", "the longest run of flows that stands twice in {}", measures.stands_twice, flows, TWICE_SLIP, (None, 5)),
    of_flows("bonds", "the largest flow of {}", measures.largest_of_many, percent_of("their sum"), FACTOR_SLIP,
             (None, Fraction(1, 4))),
    # Money.
    of_case("the worth of all assets at the mean rates", measures.coverage, times("the liabilities"), FACTOR_SLIP,
            (Fraction(7, 10), 2)),
    # One of the two in thousands of euros can hide behind the other.
    of_case("the sum of flows.bonds", measures.bonds_to_pensions, times("the sum of flows.pension"), EURO_SLIP,
            (Fraction(1, 1_000), None)),
    of_case("the sum of amounts without currency", measures.amounts_to_pensions, times("the sum of flows.pension"), EURO_SLIP,
            (Fraction(1, 1_000), None)),
    of_amount("mature", "mature", (SMALL, None)),
    of_amount("emerging", "emerging", (SMALL, Fraction(3, 10))),
    of_amount("private", "private_equity", (SMALL, Fraction(2, 10))),
    of_amount("property", "property", (SMALL, Fraction(4, 10))),
    of_amount("commodities", "commodities", (SMALL, Fraction(15, 100))),
    of_amount("credit", "credit", (SMALL, None)),
    of_amount("cash", "cash", (SMALL, None)),
    of_amount("currency", "currency", (Fraction(1, 200), 1)),
    # Months.
    of_months("the UFR found from the months", measures.ufr_found, rate_percent,
              "were the months typed in another unit, such as fractions as percentages?", (1_000, None)),
    of_months("the number of different months", measures.different_months, str, "was one rate copied to all, or were decimals cut off?", (20, None)),
    of_months("the largest move from a month to the next", measures.largest_move, rate_percent, f"{CELL_SLIP[:-1]}, or was a "
              "month typed in another unit?", (None, 2_000)),
    of_months("the month that is farthest from the nearer of its neighbours", measures.from_nearer_month, away, CELL_SLIP,
              (None, 1_000)),
    of_months("the longest run of months that stands twice", measures.stands_twice, calendar_months, TWICE_SLIP, (None, 5)),
]


def warnings(looked: Looked, *about: About) -> list[str]:
    """What is implausible about what is looked at, a sentence each, in the table's order; `about` names what it is said of."""
    return [warning for rule in RULES if rule.about in about and (warning := rule.warning(looked))]


def warnings_of(case: Case, history: History | None = None, *, dates: Sequence[date] | None = None,
                newest_month: date | None = None) -> list[str]:
    """What is likelier a slip than meant in a case, and in the history that gives its UFR; a sentence each, none where all is usual.

    The names in the sentences are those of a case as text. Whoever knows the dates of the days, or a day of the history's newest
    month, may give them: they are judged too. Raises Refused as save() and History.ufr() do: only what is accepted is judged. What is
    no Case raises TypeError.
    """
    if not isinstance(case, Case):
        raise TypeError(f"what is looked at is a Case, not {type(case).__name__}; Case.read() makes one of a case file")
    case.save()
    if history:
        history.ufr()
    newest = None if newest_month is None else 12 * newest_month.year + newest_month.month - 1
    return warnings(Looked(case, history.months() if history else None, dates, newest), About.CASE, About.MONTHS)
