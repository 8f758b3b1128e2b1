"""What a case holds: the fields of the file with their limits (METHOD, The case file, and Rates in four bytes)."""

from dataclasses import dataclass, field
from datetime import date
from fractions import Fraction

from ginghamowl._shown import mean_percent

from .units import AGE, COUNT, DURATION, FINE_RATE, MONEY, RATE, SHARE, Number

TERMS = 60  # of a day
MOST_DAYS, MOST_PENSION, MOST_BONDS = 70, 120, 60
FORWARD_LIMITS = -2_000, 12_000  # in steps, of the mean one-year forward rate
DEFAULT_UFR = 4_200
DEFAULT_EQUITY_CORRELATION = 1_000  # in thousandths: S2 is the sum of its four losses

FIELDS = ["UFR", "days", "pension flows", "bond flows", "amounts", "shocks", "people", "days in four bytes",
          "equity correlation"]  # by their bits
REQUIRED, FORBIDDEN = (2, 5, 6), range(9, 16)  # and exactly one of the two days fields

UFR_NUMBER = Number("ufr", 0, 5_000, RATE, "4.2 %")
RATE_NUMBER = Number("rate", -1_000, 10_000, RATE, "0.226 %")
FINE_RATE_NUMBER = Number("rate", -100_000, 1_000_000, FINE_RATE, "0.22613 %", 4)
FLOW_NUMBER = Number("flow", 0, 100_000_000, MONEY, "8651000", 4)
AMOUNT_NUMBERS = [Number(name, 0, 100_000_000_000, MONEY, "1100000", 8) for name in
                  ("mature", "emerging", "private", "property", "commodities", "credit", "cash", "currency")]
SHOCK_NUMBERS = [
    Number("up_shift", 0, 1_000, RATE, "0.71 %"),
    Number("down_shift", 0, 1_000, RATE, "0.68 %"),
    Number("mature_fall", 0, 1_000, SHARE, "25 %"),
    Number("emerging_fall", 0, 1_000, SHARE, "35 %"),
    Number("private_fall", 0, 1_000, SHARE, "30 %"),
    Number("property_fall", 0, 1_000, SHARE, "15 %"),
    Number("currency_fall", 0, 1_000, SHARE, "20 %"),
    Number("commodities_fall", 0, 1_000, SHARE, "30 %"),
    Number("spread_rise", 0, 1_000, SHARE, "40 %"),
    Number("correlation", 0, 1_000, SHARE, "50 %"),
    Number("spread", 0, 10_000, RATE, "1.24 %"),
    Number("duration", 0, 500, DURATION, "5.3 years"),
]
EQUITY_CORRELATION_NUMBER = Number("equity_correlation", 0, 1_000, SHARE, "50 %")  # a shock in a text, a field of its own in a file
PEOPLE_NUMBERS = [
    Number("heads", 1, 1_000_000, COUNT, "4180", 4),
    Number("pension_age", 0, 1_200, AGE, "66 years 3 months"),
    Number("mean_age", 0, 1_200, AGE, "45 years 11 months"),
]


@dataclass(frozen=True)
class DaysField:
    """One of the two days fields: its bit, the number that its rates are, and how many of their unit a step is."""
    bit: int
    rate: Number
    per_step: int


DAYS_FIELDS = {2: DaysField(1, RATE_NUMBER, 1), 4: DaysField(7, FINE_RATE_NUMBER, 100)}  # by the bytes of a rate


@dataclass
class Case:
    """A case as the file has it: None for a field that is absent, each number in the file's own unit.

    What the file does not hold is told of the text: the dates of the days, where the labels of their sheet say them, and the
    SHA-256 of each sheet, by the name that the text has for it.
    """
    rate_bytes: int
    ufr: int | None
    days: list[list[int]]
    pension: list[int]
    bonds: list[int] | None
    amounts: dict[str, int] | None
    shocks: dict[str, int]
    people: dict[str, int]
    equity_correlation: int | None = None
    dates: list[date] | None = field(default=None, compare=False)
    sheets: dict[str, str] = field(default_factory=dict, compare=False)

    @property
    def days_field(self) -> DaysField:
        return DAYS_FIELDS[self.rate_bytes]


@dataclass(frozen=True)
class Forward:
    """A term whose growth t × s(t) - (t - 1) × s(t-1), in the rates' unit and summed over the days, is out of limits (refusal 6).

    Two values of growth ÷ days differ by 1/7,000,000 % or more, so with eight decimals none of them looks like a limit.
    """
    term: int
    growth: int
    days: int
    field: DaysField

    def __str__(self) -> str:
        t, n, steps = self.term, self.days, Fraction(self.growth, self.field.per_step * self.days)
        (least, most), (sum_least, sum_most) = FORWARD_LIMITS, growth_limits(n, self.field)
        return (f"the one-year forward rate from year {t - 1} to year {t} is {mean_percent(steps)}; "
                f"it must be {least // 1_000} % to {most // 1_000} %: with s(t) the sum of term t's rates over the days, "
                f"{t} × s({t}) - {t - 1} × s({t - 1}) is {self.growth:,} {self.field.rate.kind.own}; "
                f"it must be {sum_least:,} to {sum_most:,}, for n = {n}")


def growth_limits(days: int, field: DaysField) -> tuple[int, int]:
    least, most = FORWARD_LIMITS
    return least * field.per_step * days, most * field.per_step * days


def forwards_out_of_limits(days: list[list[int]], field: DaysField) -> list[Forward]:
    least, most = growth_limits(len(days), field)
    found, before = [], 0
    for term, rates in enumerate(zip(*days), 1):
        now = term * sum(rates)
        if not least <= now - before <= most:
            found.append(Forward(term, now - before, len(days), field))
        before = now
    return found
