"""What a case is worth: the curve, the money figures and the verdict."""

from collections.abc import Iterator, Sequence
from dataclasses import dataclass, fields
from enum import Enum
from typing import Any

from . import _given
from . import _library as _c
from ._words import VERDICT_SENTENCES, VERDICT_WORDS

#: The terms of the curve are 1 to this, in years.
TERMS = 120


class Verdict(Enum):
    """The verdict on a fund. ONBESLIST is undecided: a border lies inside a bracket."""

    DEKKINGSTEKORT = 1
    RESERVETEKORT = 2
    VRIJ_VERMOGEN = 3
    ONBESLIST = 4

    @property
    def word(self) -> str:
        """The verdict as the listing writes it."""
        return VERDICT_WORDS[self.value]

    @property
    def sentence(self) -> str:
        """What the verdict says."""
        return VERDICT_SENTENCES[self.value]


@dataclass(frozen=True)
class Bracket:
    """Two whole numbers; the exact figure, in the same units, is at least the lower and at most the upper."""

    lower: int
    upper: int

    @property
    def width(self) -> int:
        return self.upper - self.lower


@dataclass(frozen=True)
class Figures:
    """The money figures in cents: liabilities L, bonds B, assets A, the losses S1 to S6, the root buffer S.

    L is at the adjusted curve, whose factors a valuation gives; B is at the curve as it is, without UFR.
    Iterating gives pairs of a name, as the listing writes it (L B A S1 S2 S3 S4 S5 S6 S, in this order), and a bracket.
    """

    l: Bracket
    b: Bracket
    a: Bracket
    s1: Bracket
    s2: Bracket
    s3: Bracket
    s4: Bracket
    s5: Bracket
    s6: Bracket
    s: Bracket

    def __iter__(self) -> Iterator[tuple[str, Bracket]]:
        return ((field.name.upper(), getattr(self, field.name)) for field in fields(self))

    def as_dict(self) -> dict[str, list[int]]:
        """For JSON: the names of the listing, each with its lower and upper end."""
        return {name: _ends(figure) for name, figure in self}


class Kind(Enum):
    """What a point of the window shows."""

    BLANK = 0
    FACTOR = 1
    MONEY = 2


@dataclass(frozen=True)
class Point:
    """A point of the window: two doubles that hold the whole numbers of a bracket; 0.0 where it is blank."""

    kind: Kind
    lower: float
    upper: float


@dataclass(frozen=True)
class Valuation:
    """What an accepted case file is worth.

    `factors` (units of 10^-12) and `zero_rates` (steps of 0.00001) have the terms 1 to 120, term t at t - 1.
    """

    factors: tuple[Bracket, ...]
    zero_rates: tuple[Bracket, ...]
    figures: Figures
    verdict: Verdict

    def factor(self, term: int) -> Bracket:
        """The discount factor of a term from 1 to 120, in units of 10^-12."""
        return self.factors[_place(term)]

    def zero_rate(self, term: int) -> Bracket:
        """The zero rate of a term from 1 to 120, in steps of 0.00001."""
        return self.zero_rates[_place(term)]

    def as_dict(self) -> dict[str, Any]:
        """For JSON: the verdict's word, the figures by name, and the curve, term t at t - 1; ends as [lower, upper]."""
        return {"verdict": self.verdict.word,
                "figures": self.figures.as_dict(),
                "factors": [_ends(factor) for factor in self.factors],
                "zero_rates": [_ends(rate) for rate in self.zero_rates]}

    def listing(self) -> str:
        """The listing: a line for each figure, in cents, and one for the verdict."""
        out = (_c.c_uint8 * _c.LISTING_BYTES)()
        length = _c.engine().listing(_c.HostValuation(0, self.verdict.value, _flat(self.figures)), out, len(out))
        return bytes(out[:length]).decode("ascii")

    def window_point(self, number: int) -> Point:
        """Point 1 to 120 is a factor, 121 to 130 a money figure (L B A S1 S2 S3 S4 S5 S6 S); any other is blank.

        In a valuation that the caller made, a point is blank also where an end is above 2^53, which a double need not hold.
        """
        _given.require_int(number, "a point's number")
        if len(self.factors) != TERMS:
            raise ValueError(f"a valuation has {TERMS} factors, not {len(self.factors)}")
        ends = [end for factor in self.factors for end in _unsigned_ends(factor)]
        figures = _flat(self.figures)
        if not 0 <= number < 2 ** 64:
            return Point(Kind.BLANK, 0.0, 0.0)
        point = _c.engine().window_point(number, (_c.c_uint64 * _c.ENTRIES)(*ends), _c.ENTRIES, figures)
        return Point(Kind(point.kind), point.lower, point.upper)


def valued(function: Any, *arguments: Any) -> Valuation:
    """What a function of the engine answers that takes these arguments, and behind them the two buffers; raises Refused."""
    factors, rates = (_c.c_uint64 * _c.ENTRIES)(), (_c.c_int64 * _c.ENTRIES)()
    answer = function(*arguments, factors, len(factors), rates, len(rates))
    if answer.refusal:
        raise _given.Refused(answer.refusal)
    figures = Figures(**{field.name: Bracket(figure.lower, figure.upper)
                         for field in fields(Figures)
                         for figure in [getattr(answer.figures, field.name)]})
    return Valuation(_brackets(factors), _brackets(rates), figures, Verdict(answer.verdict))


def _place(term: int) -> int:
    _given.require_int(term, "a term")
    if not 1 <= term <= TERMS:
        raise ValueError(f"a term is 1 to {TERMS}, not {term}")
    return term - 1


def _brackets(entries: Sequence[int]) -> tuple[Bracket, ...]:
    """"lower, upper, term by term"."""
    return tuple(map(Bracket, entries[0::2], entries[1::2]))


def _ends(bracket: Bracket) -> list[int]:
    return [bracket.lower, bracket.upper]


def _unsigned_ends(bracket: Bracket) -> list[int]:
    """The ends as the engine takes them. A caller may have made the bracket, and ctypes cuts numbers without a word."""
    for end in _ends(bracket):
        _given.require_int(end, "an end of a bracket")
        if not 0 <= end < 2 ** 64:
            raise ValueError(f"an end of a bracket is 0 to 2^64 - 1, not {end}")
    return _ends(bracket)


def _flat(figures: Figures) -> _c.HostFigures:
    return _c.HostFigures(*(_c.HostBracket(*_unsigned_ends(figure)) for _, figure in figures))
