"""A case in TOML to the case, with all faults of the text at once."""

import difflib
import hashlib
import re
import tomllib
from dataclasses import dataclass
from datetime import date
from pathlib import Path

from .fields import (AMOUNT_NUMBERS, DAYS_FIELDS, DEFAULT_EQUITY_CORRELATION, DEFAULT_UFR, EQUITY_CORRELATION_NUMBER, FLOW_NUMBER,
                     MOST_BONDS, MOST_DAYS, MOST_PENSION, PEOPLE_NUMBERS, SHOCK_NUMBERS, TERMS, UFR_NUMBER, Case, DaysField,
                     forwards_out_of_limits)
from .sheets import Cell, Layout, Sheet, days_in, flows_in, read_bytes, sheet_of
from .units import (COUNT, MONEY, RATE, SHARE, Bad, Kind, NotWhole, Number, Unit, advice_for, could_be_fractions,
                    fraction_question, is_bare, listed, printable, shown, thousands_mark, whole)

MOST_SHOWN = 40  # faults in a message; the list has all
LARGEST_TEXT = 300_000  # characters; the largest case takes less than 100,000
MOST_POINTS = 300  # in a line outside decimals; the parser's memory grows with the square of the parts of a dotted key
LONG = 10 ** 30  # Python has a limit of digits, but none for hexadecimal ones
DECIMAL = re.compile(r"(?<![\w.])[0-9]+\.[0-9]+(?![\w.])")

# The keys of each table; "" is the top.
KEYS = {
    "": ["ufr"],
    "days": ["rate_bytes", "unit", "rates", "csv", "lines", "header", "labels"],
    "flows": ["pension", "pension_csv", "bonds", "bonds_csv"],
    "amounts": [number.name for number in AMOUNT_NUMBERS],
    "shocks": [number.name for number in (*SHOCK_NUMBERS, EQUITY_CORRELATION_NUMBER)],
    "people": [number.name for number in PEOPLE_NUMBERS],
}
TABLES = [name for name in KEYS if name]
FORM_ADVICE = "write 4 for rates to 0.00001 %, or 2 for rates to 0.001 %, as without the key"
FINER_ADVICE = "for rates to 0.00001 % write rate_bytes = 4 in [days], and the rates in % or bp"
FINER_FRACTIONS_ADVICE = "for rates to 0.00001 %, which is 0.0000001 as a fraction, write rate_bytes = 4 in [days]"
SMALL_ADVICE = "only if they really are that small, write rate_bytes = 4 in [days], and the rates in % or bp"


class Wrong(Exception):
    """What is wrong with a case in TOML or with a history of months: a sentence for each fault, by its key or its line."""

    def __init__(self, faults: list[str]) -> None:
        more = [f"and {len(faults) - MOST_SHOWN:,} more faults"] if len(faults) > MOST_SHOWN else []
        super().__init__("\n".join(faults[:MOST_SHOWN] + more))
        self.faults = faults


class RefusedText(Wrong):
    """A case in TOML without a fault but that the engine refuses it: the number of the refusal, and the case."""

    def __init__(self, faults: list[str], number: int, case: Case) -> None:
        super().__init__(faults)
        self.number, self.case = number, case


@dataclass(frozen=True)
class Bare:
    """A bare number with a decimal point or an exponent, as it was written."""
    text: str


def decoded(data: bytes) -> str:
    """The text of TOML, which is UTF-8; UTF-16 is known by its byte order mark."""
    try:
        return data.decode("utf-16" if data.startswith((b"\xff\xfe", b"\xfe\xff")) else "utf-8-sig")
    except UnicodeDecodeError as error:
        raise Wrong([f"this is no TOML: it is no text in UTF-8 from byte {error.start} on"]) from None


def from_toml(text: str, folder: Path = Path()) -> Case:
    """The case in a TOML text; CSV files that it names are looked for in the folder, and read once. Raises Wrong."""
    return Text(parsed(text), folder).case()


def parsed(text: str) -> dict:
    if len(text) > LARGEST_TEXT:
        raise Wrong([f"the text has {len(text):,} characters, more than {LARGEST_TEXT:,}"])
    for place, line in enumerate(text.split("\n"), 1):
        if line.count(".") > MOST_POINTS and DECIMAL.sub("", line).count(".") > MOST_POINTS:
            raise Wrong([f"line {place} has more than {MOST_POINTS} points outside decimals"])
    try:
        return tomllib.loads(text.removeprefix("\ufeff"), parse_float=Bare)
    except RecursionError:
        raise Wrong(["this is no TOML: it is nested too deep"]) from None
    except ValueError as error:  # tomllib's own error is one
        raise Wrong([f"this is no TOML: {''.join(mark for mark in str(error) if mark.isprintable())}"]) from None


def dotted(table: str, key: str) -> str:
    return f"{table}.{key}" if table else key


def likely(table: str, key: str) -> str | None:
    """The key that was likely meant: one of the same table, or else one of another."""
    key = key.casefold()
    same = difflib.get_close_matches(key, KEYS[table] + ([] if table else TABLES), 1)
    if same:
        return dotted(table, same[0])
    others = {name: dotted(place, name) for place, names in KEYS.items() for name in names}
    close = difflib.get_close_matches(key, others, 1, 0.8)
    return others[close[0]] if close else None


def bare_text(value: object) -> str | None:
    """A bare number as text; None for anything else."""
    if isinstance(value, Bare):
        return value.text
    if isinstance(value, int) and not isinstance(value, bool):
        return str(value) if abs(value) < LONG else hex(value)
    return None


def in_sentence(value: object) -> str:
    if isinstance(value, str):
        return f'"{printable(value)}"'
    if isinstance(value, bool):
        return str(value).lower()
    return printable(bare_text(value) or "no number")


def quantity(value: object, number: Number, default: Unit | None = None, mark: str | None = None) -> int:
    """A value of the text as the file counts it; raises Bad. The default unit is of a text that has none; the mark is known to stand
    between thousands."""
    may_be_bare = number.kind in (COUNT, MONEY)
    if value == "":
        raise Bad(f"is empty; {advice_for(number, default)}")
    if isinstance(value, str) and number.kind is not COUNT:
        return whole(value, number, default, mark)
    if may_be_bare and isinstance(value, int) and not isinstance(value, bool):
        if not number.least <= value <= number.most:
            raise Bad(f"is {f'{value:,}' if abs(value) < LONG else in_sentence(value)}; it must be {number.limits}")
        return value
    if bare_text(value) and not may_be_bare:
        raise Bad(f"is {in_sentence(value)} without a unit; {number.advice}")
    raise Bad(f"is {in_sentence(value)}; {number.advice}")


def unit_advice(kind: Kind) -> str:
    """How to name the unit of rates: unit = "%", "bp", "steps" or "fraction"."""
    return "unit = " + listed([f'"{unit.name}"' for unit in kind.column_units])


def not_whole(cells: list[Cell], number: Number, unit: Unit | None) -> dict[Cell, NotWhole]:
    """The rates within their limits that have too many decimals, each with what is wrong with it."""
    found = {}
    for cell in cells:
        try:
            whole(cell.text, number, unit)
        except NotWhole as fault:
            found[cell] = fault
        except Bad:
            pass
    return found


def four_bytes_hold(fault: NotWhole) -> bool:
    """Whether four bytes hold a rate that two bytes do not."""
    return (DAYS_FIELDS[4].per_step * fault.value).denominator == 1


def without_unit(rates: list[Cell]) -> str:
    """One sentence for all rates that have no unit."""
    others = f", and so are {len(rates) - 1:,} other rates" if len(rates) > 1 else ""
    return f"{rates[0].place} is {printable(rates[0].text)} without a unit{others}"


def all_too_fine(faults: dict[Cell, NotWhole]) -> str:
    """One sentence for all rates that have too many decimals, with the fault of the first."""
    cell, fault = next(iter(faults.items()))
    more = len(faults) - 1
    others = f"; {more:,} other {'rate has' if more == 1 else 'rates have'} such decimals too" if more else ""
    return f"{cell.place} {fault}{others}"


class Text:
    """A text's tables, and the faults found in them so far."""

    def __init__(self, top: dict, folder: Path) -> None:
        self.folder, self.faults = folder, []
        self.refused: list[str] = []  # the faults that are a refusal, which are among the others too
        self.read: dict[str, bytes] = {}  # the sheets, by their names
        self.dates: list[date] | None = None  # of the days, where their sheet says them
        self.tables = {"": {key: value for key, value in top.items() if key not in TABLES}}
        for name in TABLES:
            table = top.get(name, {})
            if not isinstance(table, dict):
                self.faults.append(f"{name} must be a table, [{name}]")
            self.tables[name] = table if isinstance(table, dict) else {}
        self.has_amounts = "amounts" in top
        for name, table in self.tables.items():
            self.name_unknown_keys(name, table)

    def name_unknown_keys(self, name: str, table: dict) -> None:
        for key in table:
            if key not in KEYS[name]:
                meant = likely(name, key)
                self.faults.append(f"{dotted(name, printable(key))} is no key of a case"
                                   + (f"; did you mean {meant}?" if meant else ""))

    def case(self) -> Case:
        ufr = self.optional("", UFR_NUMBER, f"the UFR is {shown(DEFAULT_UFR, RATE)}")
        rate_bytes = self.rate_bytes()
        days, pension, bonds = self.days(rate_bytes), self.flows("pension", MOST_PENSION), self.flows("bonds", MOST_BONDS)
        amounts = self.numbers("amounts", AMOUNT_NUMBERS) if self.has_amounts else None
        shocks = self.numbers("shocks", SHOCK_NUMBERS)
        correlation = self.optional("shocks", EQUITY_CORRELATION_NUMBER,
                                    f"the four classes fall together, which is {shown(DEFAULT_EQUITY_CORRELATION, SHARE)}")
        case = Case(rate_bytes, ufr, days, pension, bonds, amounts, shocks, self.numbers("people", PEOPLE_NUMBERS), correlation,
                    self.dates, {name: hashlib.sha256(data).hexdigest() for name, data in self.read.items()})
        if self.faults:
            raise RefusedText(self.faults, 6, case) if self.faults == self.refused else Wrong(self.faults)
        return case

    def sheet(self, name: object) -> Sheet:
        """The sheet of this name; one that is named twice is read once."""
        if not isinstance(name, str) or name not in self.read:
            self.read[name] = read_bytes(name, self.folder)
        return sheet_of(self.read[name], printable(name))

    def value(self, key: str, value: object, number: Number, default: Unit | None = None, mark: str | None = None) -> int:
        """A number, or 0 with a fault."""
        try:
            return quantity(value, number, default, mark)
        except Bad as bad:
            self.faults.append(f"{key} {bad}")
            return 0

    def optional(self, table: str, number: Number, otherwise: str) -> int | None:
        """A number that may be left out; None where it is. `otherwise` says what holds then."""
        key, value = dotted(table, number.name), self.tables[table].get(number.name)
        if value == "":
            self.faults.append(f"{key} is empty; {number.advice}, or delete the line: without it {otherwise}")
            return None
        return None if value is None else self.value(key, value, number)

    def numbers(self, name: str, numbers: list[Number]) -> dict[str, int]:
        table, values = self.tables[name], {}
        for number in numbers:
            key = dotted(name, number.name)
            if number.name in table:
                values[number.name] = self.value(key, table[number.name], number)
            else:
                self.faults.append(f"{key} is missing; {number.advice}")
        return values

    # ------------------------------------------------------------ flows

    def flows(self, name: str, most: int) -> list[int] | None:
        table, by_sheet = self.tables["flows"], f"{name}_csv"
        if name in table and by_sheet in table:
            self.faults.append(f"flows.{name} and flows.{by_sheet} are both there; write one of them")
        elif name in table:
            return self.inline_flows(f"flows.{name}", table[name], most)
        elif by_sheet in table:
            return self.sheet_of_flows(f"flows.{by_sheet}", table[by_sheet], most)
        elif name == "pension":
            self.faults.append("flows.pension is missing, and so is flows.pension_csv; write one of them")
        return None

    def inline_flows(self, key: str, flows: object, most: int) -> list[int]:
        if not isinstance(flows, list) or not flows:
            self.faults.append(f"{key} is {'empty' if flows in ([], '') else 'no list'}; write a list of 1 to {most} flows, "
                               "in euros, from term 1 on" + (", or delete it: then there are none" if "bonds" in key else ""))
            return []
        self.judge_count(key, len(flows), most)
        mark = thousands_mark([flow if isinstance(flow, str) else bare_text(flow) or "" for flow in flows])
        return [self.value(f"{key}, term {term},", flow, FLOW_NUMBER, mark=mark) for term, flow in enumerate(flows, 1)]

    def sheet_of_flows(self, key: str, name: object, most: int) -> list[int]:
        try:
            cells = flows_in(self.sheet(name))
        except Bad as bad:
            self.faults.append(f"{key} {bad}")
            return []
        self.judge_count(key, len(cells), most)
        mark = thousands_mark([cell.text for cell in cells])
        return [self.value(f"{key}, {cell.place}", cell.text, FLOW_NUMBER, MONEY.units[0], mark) for cell in cells]

    def judge_count(self, key: str, count: int, most: int) -> None:
        if count > most:
            self.faults.append(f"{key} has {count:,} flows; it must have 1 to {most}")

    # ------------------------------------------------------------ days

    def rate_bytes(self) -> int:
        """The bytes of a rate, or 0 with a fault. Never found by looking at the rates: a sheet whose decimals were cut off must not
        pass for one that has no more."""
        said = self.tables["days"].get("rate_bytes", 2)
        if type(said) is int and said in DAYS_FIELDS:
            return said
        self.faults.append(f"days.rate_bytes is {in_sentence(said)}; {FORM_ADVICE}")
        return 0

    def days(self, rate_bytes: int) -> list[list[int]]:
        table, field = self.tables["days"], DAYS_FIELDS[rate_bytes or 2]
        unit, is_good = self.unit(table.get("unit"), field.rate.kind)
        is_good = is_good and rate_bytes != 0
        if "rates" in table and "csv" in table:
            self.faults.append("days.rates and days.csv are both there; write one of them")
            return []
        if "csv" in table:
            cells = self.sheet_of_days(table, field, unit, is_good)
        elif "rates" in table:
            cells = self.inline_days(table)
        else:
            self.faults.append("days.rates is missing, and so is days.csv; write one of them")
            return []
        return self.rates(cells, field, unit) if is_good else []

    def unit(self, word: object, kind: Kind) -> tuple[Unit | None, bool]:
        """The unit of bare rates, if any, and whether the key is right."""
        found = kind.column_unit(word) if isinstance(word, str) else None
        if word is None or found:
            return found, True
        said = "empty" if word == "" else f'"{printable(word)}"' if isinstance(word, str) else "no text"
        self.faults.append(f"days.unit is {said}; write {unit_advice(kind)}, or delete it where each rate carries its own")
        return None, False

    def inline_days(self, table: dict) -> list[list[Cell]]:
        for key in ("lines", "header", "labels"):
            if key in table:
                self.faults.append(f"days.{key} is of a sheet; it goes with days.csv only")
        days = table["rates"]
        if not isinstance(days, list) or not 1 <= len(days) <= MOST_DAYS:
            self.faults.append(f"days.rates must be a list of 1 to {MOST_DAYS} days, each a list of {TERMS} rates")
            return []
        cells = []
        for place, day in enumerate(days, 1):
            if not isinstance(day, list) or len(day) != TERMS:
                held = f"has {len(day):,} rates" if isinstance(day, list) else "is no list"
                self.faults.append(f"days.rates, day {place}, {held}; it must be a list of {TERMS}, of the terms 1 to {TERMS}")
            else:
                cells.append([self.inline_cell(rate, f"days.rates, term {term} of day {place},")
                              for term, rate in enumerate(day, 1)])
        return cells

    def inline_cell(self, rate: object, place: str) -> Cell:
        text = rate if isinstance(rate, str) else bare_text(rate)
        return Cell("no number" if text is None else text, place)

    def sheet_of_days(self, table: dict, field: DaysField, unit: Unit | None, is_good: bool) -> list[list[Cell]]:
        def could_be_rates(cells: list[str]) -> bool:
            try:
                return bool([whole(cell, field.rate, unit) for cell in cells])
            except Bad:
                return False

        layout = self.layout(table)
        try:
            sheet = self.sheet(table["csv"])
            if not layout or not is_good:
                return []
            days, self.dates = days_in(sheet, layout, could_be_rates)
            return [[Cell(cell.text, f"days.csv, {cell.place}") for cell in day] for day in days]
        except Bad as bad:
            self.faults.append(f"days.csv {bad}")
            return []

    def layout(self, table: dict) -> Layout | None:
        """What the text says of its sheet; None where it says that wrongly."""
        before = len(self.faults)
        if table.get("lines") not in (None, "days", "terms"):
            self.faults.append('days.lines must be "days" or "terms": what a line of the sheet is')
        for key in ("header", "labels"):
            if table.get(key) not in (None, True, False) or type(table.get(key)) is int:
                self.faults.append(f"days.{key} must be true or false")
        return Layout(*(table.get(key) for key in ("lines", "header", "labels"))) if len(self.faults) == before else None

    def rates(self, days: list[list[Cell]], field: DaysField, unit: Unit | None) -> list[list[int]]:
        """The rates; those without a unit, where the table has none either, are one fault, and so are those that are too fine."""
        before = len(self.faults)
        cells = [cell for day in days for cell in day]
        bare = [cell for cell in cells if not unit and is_bare(cell.text)]
        if bare:
            self.faults.append(f'{without_unit(bare)}; write {unit_advice(field.rate.kind)} in [days], or each rate with its own, '
                               f'such as "{field.rate.example}"')
        told = {*bare, *self.too_fine(cells, field, unit)}
        rates = [[0 if cell in told else self.value(cell.place, cell.text, field.rate, unit) for cell in day] for day in days]
        if len(self.faults) == before:
            self.refused = [f"days: refused, 6: {forward}" for forward in forwards_out_of_limits(rates, field)]
            self.faults += self.refused
        return rates

    def too_fine(self, cells: list[Cell], field: DaysField, unit: Unit | None) -> dict[Cell, NotWhole]:
        """The rates with too many decimals that are told as one fault: all, where every rate could be a fraction; else those that four
        bytes hold. Fractions are asked about first: with rate_bytes = 4 they would be read as a hundredth of what they are."""
        number, is_fraction = field.rate, bool(unit and unit.is_bare)
        fine = not_whole(cells, number, unit)
        finer = {cell: fault for cell, fault in fine.items() if field.per_step == 1 and four_bytes_hold(fault)}
        if fine and not is_fraction and could_be_fractions([cell.text for cell in cells], number):
            first = next(iter(fine)).text
            bare = "" if is_bare(first) else ", and the rates without %"
            self.faults.append(f"{all_too_fine(fine)}; {fraction_question(first, number)} "
                               f'Then write unit = "fraction" in [days]{bare}' + (f"; {SMALL_ADVICE}" if finer else ""))
            return fine
        if finer:
            self.faults.append(f"{all_too_fine(finer)}; {FINER_FRACTIONS_ADVICE if is_fraction else FINER_ADVICE}")
        return finer
