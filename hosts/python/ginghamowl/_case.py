"""A case by its fields: read from a case file, edited, and saved as the shortest file."""

import struct
from collections.abc import Iterable, Sequence
from dataclasses import dataclass, replace
from enum import IntEnum
from itertools import chain
from typing import Any, ClassVar

from . import _library as _c
from ._given import Refused, accepted, rate, require_int, unsigned
from ._library import DAY_RATES, FILE_BYTES

DEFAULT_UFR = 4_200  # of a file without the field

#: The correlation between the equity classes of a file without the field, in thousandths: the classes fall together.
DEFAULT_EQUITY_CORRELATION = 1_000

FINER = 100  # this many steps of a rate in four bytes are one of a rate in two


class DaysForm(IntEnum):
    """The two days fields of a case file, by the bytes of a rate.

    Rates of two bytes, and the same rates times 100 in four, have the same valuation; but they are different cases, with different
    files. Case.in_form() makes the one of the other.
    """

    TWO_BYTES = 2  #: in steps of 0.00001, -1,000 to 10,000
    FOUR_BYTES = 4  #: in steps of 0.0000001, -100,000 to 1,000,000


class _Days(tuple[tuple[int, ...], ...]):
    """The days of a case: a tuple like any other, but its class says which form the rates have.

    So a case does not take the days of a case in the other form for its own. A class for each form, and no attribute of the tuple,
    so that copies and pickles keep the form.
    """

    __slots__ = ()
    form: ClassVar[DaysForm]


class _TwoByteDays(_Days):
    __slots__ = ()
    form = DaysForm.TWO_BYTES


class _FourByteDays(_Days):
    __slots__ = ()
    form = DaysForm.FOUR_BYTES


def days_of(days: Iterable[Iterable[int]], form: DaysForm) -> _Days:
    """The days as a case of this form keeps them; raises ValueError for those that a case of the other form has kept."""
    if isinstance(days, _Days) and days.form is not form:
        raise ValueError(f"days_form is {form.name}, but these days have rates in {days.form.name}, and the same numbers are other "
                         f"rates there; case.in_form(DaysForm.{form.name}) gives a case with the same rates in that form")
    kept = _TwoByteDays if form is DaysForm.TWO_BYTES else _FourByteDays
    return kept(tuple(day) for day in days)


@dataclass(frozen=True)
class Amounts:
    """What the fund holds of each kind, and its currency exposure, in euros."""

    mature: int
    emerging: int
    private_equity: int
    property: int
    commodities: int
    credit: int
    cash: int
    currency: int


@dataclass(frozen=True)
class Shocks:
    """Shifts and credit spread in steps of 0.00001, credit duration in tenths of a year, all others in thousandths.

    `correlation` is that of S1 and S2. `equity_correlation` is that of the four equity classes with each other, whose losses make S2:
    mature, emerging and private equity, and property. At 1,000 the classes fall together, and S2 is the sum of their losses, with no
    relief. At 0 they are uncorrelated, which gives the smallest S2, and so the smallest buffer.
    """

    up_shift: int
    down_shift: int
    mature_fall: int
    emerging_fall: int
    private_fall: int
    property_fall: int
    currency_fall: int
    commodities_fall: int
    spread_rise: int
    correlation: int
    spread: int
    duration: int
    equity_correlation: int = DEFAULT_EQUITY_CORRELATION


@dataclass(frozen=True)
class People:
    """The head count, and two ages in months."""

    heads: int
    pension_age: int
    mean_age: int


@dataclass(frozen=True)
class Case:
    """What one case file holds. A case may have any whole numbers: save() says which of them are out of limits.

    `ufr` is in steps of 0.00001. So are the rates, or in steps of 0.0000001 where `days_form` is FOUR_BYTES; a day has those of the
    terms 1 to 60. Flows are in euros, from term 1 on. Lists are kept as tuples. dataclasses.replace() makes the changed case of an
    edit. A `days_form` other than 2 and 4 raises ValueError.

    in_form() gives the same rates in the other form. A change of `days_form` alone would make other rates of the same numbers, and
    so another verdict: `days` of a case, or of a RollingWindow, with another `days_form` than theirs raise ValueError. Only those
    can be told. Numbers in a new list or tuple, tuple(case.days) and case.days[1:] among them, are rates in whatever form
    `days_form` says.
    """

    ufr: int
    days: Sequence[Sequence[int]]
    pension: Sequence[int]
    bonds: Sequence[int]
    amounts: Amounts
    shocks: Shocks
    people: People
    days_form: DaysForm = DaysForm.TWO_BYTES

    def __post_init__(self) -> None:
        """Tuples and a member of the enum, so that a case equals the one that is read from its file."""
        object.__setattr__(self, "days_form", DaysForm(self.days_form))
        object.__setattr__(self, "days", days_of(self.days, self.days_form))
        object.__setattr__(self, "pension", tuple(self.pension))
        object.__setattr__(self, "bonds", tuple(self.bonds))

    @classmethod
    def read(cls, data: bytes) -> "Case":
        """The case that a file holds; raises Refused. The engine judges the file, and an accepted one is taken apart here."""
        file = _File(accepted(data))
        bits = file.number("H")
        form = DaysForm.FOUR_BYTES if bits >> 7 & 1 else DaysForm.TWO_BYTES
        ufr = file.number("H") if bits >> 0 & 1 else DEFAULT_UFR
        days = file.days("h") if form is DaysForm.TWO_BYTES else []
        pension = file.flows()
        bonds = file.flows() if bits >> 3 & 1 else ()
        amounts = Amounts(*(file.numbers("8Q") if bits >> 4 & 1 else (0,) * 8))
        shocks = file.numbers("12H")
        people = People(*file.numbers("I2H"))
        if form is DaysForm.FOUR_BYTES:
            days = file.days("i")
        equity_correlation = file.number("H") if bits >> 8 & 1 else DEFAULT_EQUITY_CORRELATION
        return cls(ufr, days, pension, bonds, amounts, Shocks(*shocks, equity_correlation), people, form)

    def in_form(self, form: DaysForm) -> "Case":
        """The case with the same rates in this form, which has the same valuation; the case itself where the form is its own.

        Each number is 100 times as large in four bytes as in two. To two bytes nothing is rounded: where a rate has more decimals than
        they hold, ValueError names the first such rate by its day and term, and says how many there are. Rates may be out of limits,
        and stay so: save() judges them. One that is no int raises TypeError.
        """
        form = DaysForm(form)
        if form is self.days_form:
            return self
        for number in chain.from_iterable(self.days):
            require_int(number, "a rate")
        if form is DaysForm.FOUR_BYTES:
            days = [[FINER * number for number in day] for day in self.days]
        else:
            _require_whole_steps(self.days)
            days = [[number // FINER for number in day] for day in self.days]
        return replace(self, days=days, days_form=form)

    def save(self) -> bytes:
        """The shortest file of this case, with the days field of `days_form`.

        It leaves out a UFR of 4,200, amounts that are all 0, an empty list of bonds and an `equity_correlation` of 1,000.

        Raises Refused with the number that the engine gives. A day that has not 60 rates is refused with 4, as a wrong number of
        days is. A number that is no int raises TypeError.
        """
        out = (_c.c_uint8 * FILE_BYTES)()
        saved = _c.engine().save(*arguments(self), out, len(out))
        if saved.refusal:
            raise Refused(saved.refusal)
        return bytes(out[:saved.written])


def arguments(case: Case) -> tuple[Any, ...]:
    """The case as C takes it: the fields that are no lists, and each list with its length."""
    fields = _c.HostCaseFields(case.days_form, unsigned(case.ufr, "the UFR"), _flat(_c.HostAmounts, case.amounts),
                               _flat(_c.HostShocks, case.shocks), _flat(_c.HostPeople, case.people))
    rates, pension, bonds = _rates(case.days), _flows(case.pension), _flows(case.bonds)
    return fields, rates, len(rates), pension, len(pension), bonds, len(bonds)


class _File:
    """An accepted file, read from its front."""

    def __init__(self, data: bytes) -> None:
        self.data, self.at = data, 0

    def numbers(self, form: str) -> tuple[int, ...]:
        """The next numbers, big-endian; `form` is that of the module struct."""
        found = struct.unpack_from(">" + form, self.data, self.at)
        self.at += struct.calcsize(">" + form)
        return found

    def number(self, form: str) -> int:
        return self.numbers(form)[0]

    def days(self, rate: str) -> list[tuple[int, ...]]:
        """The days, each rate of which has this form."""
        return [self.numbers(f"{DAY_RATES}{rate}") for _ in range(self.number("B"))]

    def flows(self) -> tuple[int, ...]:
        return self.numbers(f"{self.number('B')}I")


def _require_whole_steps(days: Sequence[Sequence[int]]) -> None:
    """Raises ValueError where a rate in four bytes is no whole number of the steps that a rate has in two."""
    finer = [(day, term, number) for day, numbers in enumerate(days, 1) for term, number in enumerate(numbers, 1) if number % FINER]
    if finer:
        day, term, number = finer[0]
        percent = f"{'-' if number < 0 else ''}{abs(number) // 10 ** 5}.{abs(number) % 10 ** 5:05} %"
        raise ValueError(f"two bytes hold whole steps of 0.00001 only, and rates with more decimals are {len(finer)} of "
                         f"{sum(map(len, days))}; the first is that of day {day}, term {term}: {number} steps of 0.0000001, {percent}")


def _rates(days: Sequence[Sequence[int]]) -> Any:
    """The rates of all days in one list. Days of 59 and 61 rates must not pass for two of 60: where a day has not 60, the list
    has one rate alone, which is refused with 4."""
    rates = [rate(number) for day in days for number in day]
    if any(len(day) != DAY_RATES for day in days):
        rates = [0]
    return (_c.c_int32 * len(rates))(*rates)


def _flows(flows: Sequence[int]) -> Any:
    return (_c.c_uint64 * len(flows))(*(unsigned(flow, "a flow") for flow in flows))


def _flat(record: Any, held: Amounts | Shocks | People) -> Any:
    """The numbers of a dataclass as the C struct of the same names."""
    return record(*(unsigned(getattr(held, name), name) for name, _ in record._fields_))
