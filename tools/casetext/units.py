"""Numbers as people write them, each with its unit, and as the file counts them. Nothing is ever rounded."""

import re
from dataclasses import dataclass
from fractions import Fraction

from ginghamowl._shown import age, decimal_text, six_decimals

LONGEST = 40  # characters of a number with its unit; no sensible one comes near


class Bad(ValueError):
    """What is wrong with a number: the end of a sentence that starts with its key."""


class NotWhole(Bad):
    """A number within its limits that is no whole number of the file's own unit."""

    def __init__(self, sentence: str, value: Fraction) -> None:
        super().__init__(sentence)
        self.value = value  # in the file's own unit


@dataclass(frozen=True)
class Unit:
    """A unit, its spellings (the first is shown), and how many of the file's own unit it is."""
    spellings: tuple[str, ...]
    size: int
    marks_are_decimal: bool = False  # whether 1.000 can only mean 1, since 1,000 of it is out of any limit
    is_bare: bool = False  # whether its numbers stand without it, so that only a whole column can have it

    @property
    def name(self) -> str:
        return self.spellings[0]

    @property
    def has_thousandths(self) -> bool:
        """Whether the file holds a thousandth of it, so that three decimals are usual."""
        return self.size % 1_000 == 0


@dataclass(frozen=True)
class Kind:
    """What sort of number it is: the file's own unit for it, and the units that a text may have, the usual one first."""
    own: str
    units: tuple[Unit, ...] = ()
    fraction: Unit | None = None  # of which 1 is 100 %; a unit of columns only

    def unit(self, word: str) -> Unit | None:
        """The unit that stands behind a number."""
        return spelt(word, self.units)

    def column_unit(self, word: str) -> Unit | None:
        """The unit that a whole column is said to have."""
        return spelt(word, self.column_units)

    @property
    def column_units(self) -> tuple[Unit, ...]:
        return (*self.units, self.fraction) if self.fraction else self.units

    @property
    def names(self) -> str:
        return listed([unit.name for unit in self.units])


def spelt(word: str, units: tuple[Unit, ...]) -> Unit | None:
    found = [unit for unit in units if " ".join(word.casefold().split()) in unit.spellings]
    return found[0] if found else None


def listed(names: list[str]) -> str:
    *others, last = names
    return f"{', '.join(others)} or {last}" if others else last


PERCENT_WORDS = "%", "percent", "procent"
YEAR_WORDS, MONTH_WORDS = ("years", "year"), ("months", "month")
DUTCH_YEARS, DUTCH_MONTHS = ("jaar", "jaren"), ("maanden", "maand")

BP_WORDS = "bp", "bps", "basis points", "basis point", "basispunten", "basispunt"
FRACTION_WORDS = "fraction", "fractions", "fractie", "fracties"

RATE = Kind("steps", (Unit(PERCENT_WORDS, 1_000, True), Unit(BP_WORDS, 10), Unit(("steps", "step"), 1)),
            Unit(FRACTION_WORDS, 100_000, True, True))
# No text has steps here: of four-byte rates a hundredth of a step is called a step too, so that they could be read in two ways.
FINE_RATE = Kind("hundredths of a step", (Unit(PERCENT_WORDS, 100_000, True), Unit(BP_WORDS, 1_000)),
                 Unit(FRACTION_WORDS, 10_000_000, True, True))
SHARE = Kind("thousandths", (Unit(PERCENT_WORDS, 10, True), Unit(("thousandths", "thousandth"), 1)))
AGE = Kind("months", (Unit(YEAR_WORDS + DUTCH_YEARS, 12, True), Unit(MONTH_WORDS + DUTCH_MONTHS, 1)))
DURATION = Kind("tenths of a year", (Unit(YEAR_WORDS + DUTCH_YEARS, 10, True),))
MONEY = Kind("euros", (Unit(("euros", "euro", "eur", "€"), 1),))
COUNT = Kind("")


@dataclass(frozen=True)
class Number:
    """A number of a field: its name, its limits in the file's own unit, an example, and the bytes that it takes."""
    name: str
    least: int
    most: int
    kind: Kind
    example: str
    length: int = 2

    @property
    def advice(self) -> str:
        """How to write it."""
        if self.kind is COUNT:
            return f"write a whole number without a unit, such as {self.example}"
        if self.kind is MONEY:
            return f'write whole euros, such as {self.example} or "{self.example} euros"'
        return f'write it in {self.kind.names}, such as "{self.example}"'

    @property
    def limits(self) -> str:
        return f"{shown(self.least, self.kind)} to {shown(self.most, self.kind)}"


# ---------------------------------------------------------------- numbers to text

def in_unit(value: int, unit: Unit) -> str:
    """So many of the file's own unit, in the unit: 4,321 steps are "4.321 %", 795 months "66 years 3 months"."""
    if unit.size == 12:
        return age(value)
    number = decimal_text(value, unit.size)
    return f"{number} {unit.name.removesuffix('s') if number == '1' else unit.name}"


def shown(value: int, kind: Kind) -> str:
    """The number as people say it."""
    if kind in (COUNT, MONEY):
        return f"{value:,} {kind.own}".rstrip()
    return in_unit(value, kind.units[0])


def printable(text: str) -> str:
    """A foreign text inside a sentence: short, on one line, without control characters."""
    short = text if len(text) <= LONGEST else text[:LONGEST] + "..."
    return "".join(mark if mark.isprintable() else mark.encode("unicode_escape").decode() for mark in short)


# ---------------------------------------------------------------- text to numbers

ONE_MARK = re.compile(r"([0-9]+)[.,]([0-9]+)")
MARK_OF_THOUSANDS = re.compile(r"(0*[1-9][0-9]*)[.,]([0-9]{3,})")
GROUPS = re.compile(r"([1-9][0-9]{0,2})((?:\.[0-9]{3})+|(?:,[0-9]{3})+)(?:[.,]([0-9]{1,2}))?")
WRITTEN = re.compile(r"([+\-\u2212]?)([0-9][0-9.,]*)\s*([^0-9.,+\-\u2212]*)")
BARE = re.compile(r"[+\-\u2212]?[0-9][0-9.,]*")
EURO_IN_FRONT = re.compile(r"(?:€|eur)\s*(?=[0-9+\-\u2212])", re.IGNORECASE)
YEARS_AND_MONTHS = re.compile(r"([0-9]+)\s*(?:years?|jaar|jaren)(?:\s*,|\s+(?:and|en)\b)?\s*([0-9]+)\s*(?:months?|maand|maanden)",
                              re.IGNORECASE)


def magnitude(digits: str) -> Fraction | None:
    """The number that digits and marks say, with a lone mark as a decimal mark; None where they say none."""
    if digits.isdigit():
        return Fraction(int(digits))
    one = ONE_MARK.fullmatch(digits)
    if one:
        return Fraction(int(one[1] + one[2]), 10 ** len(one[2]))
    groups = GROUPS.fullmatch(digits)
    if not groups or groups[3] and digits[-len(groups[3]) - 1] == groups[2][0]:
        return None
    thousands = int(groups[1] + re.sub("[.,]", "", groups[2]))
    return thousands + Fraction(int(groups[3] or 0), 10 ** len(groups[3] or ""))


def is_bare(text: str) -> bool:
    return bool(BARE.fullmatch(text.strip()))


def in_thousands(digits: str) -> int | None:
    """The number that digits say with a lone mark between thousands; None where none could stand so."""
    found = MARK_OF_THOUSANDS.fullmatch(digits)
    return int(found[1] + found[2]) if found else None


def is_unclear(decimal: Fraction, thousands: int, unit: Unit, number: Number) -> bool:
    """Whether a lone mark leaves these two readings, which are in the file's own unit and without their sign.

    Where the file holds neither number, the text is wrong either way and is told as a decimal. Where it holds the decimal alone, as
    of 12.000 steps, the thousands are out of limits. But so is many a slip: this makes the mark clear only where three decimals of
    the unit are usual.
    """
    if unit.marks_are_decimal:
        return False
    holds_decimal = decimal.denominator == 1 and decimal <= number.most
    return thousands <= number.most or holds_decimal and not unit.has_thousandths


def digits_of(text: str) -> str:
    """The digits and marks of a text with a number in euros or in no unit; "" where it is none."""
    written = WRITTEN.fullmatch(EURO_IN_FRONT.sub("", text.strip(), 1))
    return written[2] if written else ""


def thousands_mark(texts: list[str]) -> str | None:
    """The mark that stands between thousands in all of a column, so that a lone one does so too; None where nothing tells.

    A number with two such marks or more tells. But one that has the mark elsewhere, or thousands without it, or three digits behind
    the other mark, shows that the column was not written in one way; then the lone mark could be a decimal mark of the other way.
    """
    column = [digits for text in texts if (digits := digits_of(text))]
    marks = {groups[2][0] for digits in column if (groups := GROUPS.fullmatch(digits)) and len(groups[2]) > 4}
    if len(marks) != 1:
        return None
    mark = marks.pop()
    uniform = re.compile(rf"(?:0|[1-9][0-9]{{0,2}}(?:[{mark}][0-9]{{3}})*)(?:[{'.,'.replace(mark, '')}][0-9]{{1,2}})?")
    return mark if all(map(uniform.fullmatch, column)) else None


def clear_forms(decimal: Fraction, thousands: int, unit: Unit, bare: bool) -> str:
    """What to write instead of what could be read as either; both are in the file's own unit, and the decimal may be no whole number."""
    def form(value: int) -> str:
        return decimal_text(value, unit.size) if bare else in_unit(value, unit)

    if decimal.denominator == 1:
        return f"{form(int(decimal))} or {form(thousands)}"
    return f"{form(thousands)} or another whole number of {unit.name}"


def advice_for(number: Number, default: Unit | None) -> str:
    """How to write a number where a bare one has the default unit."""
    if not default or not default.is_bare:
        return number.advice
    return f"write it as a {default.name}, such as {as_written(whole(number.example, number), default)}"


def as_written(value: int, unit: Unit) -> str:
    """So many of the file's own unit, as a text has them."""
    return decimal_text(value, unit.size) if unit.is_bare else in_unit(value, unit)


def limits_in(number: Number, unit: Unit) -> str:
    limits = f"{as_written(number.least, unit)} to {as_written(number.most, unit)}"
    return f"{limits} as a {unit.name}, which is {number.limits}" if unit.is_bare else limits


def measure(text: str, number: Number, default: Unit | None, mark: str | None = None) -> tuple[Fraction, Unit]:
    """A text's number in the file's own unit, and the unit that it was written in. The mark is known to stand between thousands."""
    plain, kind, advice = text.strip(), number.kind, advice_for(number, default)
    if len(plain) > LONGEST:
        raise Bad(f'is "{printable(text)}", which is too long; {advice}')
    both = YEARS_AND_MONTHS.fullmatch(plain) if kind is AGE else None
    if both and int(both[2]) < 12:
        return Fraction(12 * int(both[1]) + int(both[2])), kind.units[0]
    if kind is MONEY and EURO_IN_FRONT.match(plain):
        plain, default = EURO_IN_FRONT.sub("", plain, 1), kind.units[0]
    written = WRITTEN.fullmatch(plain)
    if not written:
        raise Bad(f'is "{printable(text)}"; {advice}')
    unit = kind.unit(written[3]) if written[3] else default
    if not unit:
        fault = f'"{printable(text)}"' if written[3] else f"{printable(plain)} without a unit"
        raise Bad(f"is {fault}; {advice}")
    if written[3] and default and unit != default:
        raise Bad(f'is "{printable(text)}", but the unit of its table is {default.name}')
    size, thousands = magnitude(written[2]), in_thousands(written[2])
    if size is None:
        raise Bad(f'is "{printable(text)}", which is no number; {advice}')
    signed = unit.size if written[1] in ("", "+") else -unit.size
    if thousands is not None and mark and mark in written[2]:
        return Fraction(signed * thousands), unit
    if thousands is not None and is_unclear(unit.size * size, unit.size * thousands, unit, number):
        forms = clear_forms(signed * size, signed * thousands, unit, is_bare(text))
        raise Bad(f'is "{printable(text)}", which could be read in two ways; write {forms}')
    return signed * size, unit


def could_be_fractions(texts: list[str], number: Number) -> bool:
    """Whether all of these rates, bare or in %, would be within their limits as fractions; what is no number does not count."""
    percent, found = number.kind.units[0], []
    for text in texts:
        try:
            value, unit = measure(text, number, percent if is_bare(text) else None)
        except Bad:
            continue
        found.append(unit == percent and number.least <= 100 * value <= number.most)
    return bool(found) and all(found)


def fraction_question(text: str, number: Number) -> str:
    """Asks whether a rate, bare or in %, and those around it were meant as fractions."""
    written, percent = WRITTEN.fullmatch(text.strip()), number.kind.units[0]
    value, _ = measure(text, number, percent if is_bare(text) else None)
    return f"are they fractions, {written[1]}{written[2]} for {six_decimals(100 * value / percent.size)} %?"


def whole(text: str, number: Number, default: Unit | None = None, mark: str | None = None) -> int:
    """A text's number in the file's own unit, whole and within its limits; raises Bad. The default unit is of a bare number."""
    value, unit = measure(text, number, default, mark)
    said = printable(" ".join(text.split()))
    if not number.least <= value <= number.most:
        raise Bad(f"is {said}; it must be {limits_in(number, unit)}")
    if value.denominator != 1:
        below = value.numerator // value.denominator
        raise NotWhole(f"is {said}, which is no whole number of {number.kind.own}; "
                       f"the nearest are {as_written(below, unit)} and {as_written(below + 1, unit)}", value)
    return int(value)
