"""A history of months: 120 month-end forward rates, as CSV with their units and as the 240 bytes of a ring.

The start index is the place of the oldest month in the ring. The bytes do not hold it: it comes with each call.
"""

import re
import struct
from dataclasses import dataclass
from itertools import pairwise

from ginghamowl._shown import counted

from .dates import DAY, MONTH, MONTH_NAMES, NAME, YEAR, full_year
from .filebytes import Fault, out_of_limits
from .parsing import Wrong, all_too_fine, not_whole, quantity, without_unit
from .sheets import CELLS, COMMA_ADVICE, Cell, Row, has_digit, is_word, sheet_of, size_of, usual_width
from .units import (RATE, Bad, NotWhole, Number, Unit, could_be_fractions, fraction_question, is_bare, listed, printable,
                    shown)

MONTHS = 120
MONTH_NUMBER = Number("month", -1_000, 10_000, RATE, "3.912 %")
RING = struct.Struct(f">{MONTHS}h")  # big-endian, two bytes each in two's complement
UNIT_NAMES = listed([unit.name for unit in RATE.column_units])

Faults = list[tuple[int, str]]  # each with the line that it is told at; 0 is of the whole sheet


@dataclass(frozen=True)
class Months:
    """What a history tells."""
    rates: list[int]  # in steps, oldest first
    last: int | None = None  # the newest month, as month_in counts; None where no labels name the months


# ---------------------------------------------------------------- labels

MONTH_FORMS = [re.compile(form, re.IGNORECASE) for form in (
    rf"(?P<year>{YEAR})(?P<mark>[-/.])(?P<month>{MONTH})(?:(?P=mark){DAY})?",  # 2002-09, 2002-09-30
    rf"(?P<month>{MONTH})[-/.](?P<year>{YEAR})",  # 09-2002
    rf"{DAY}(?P<mark>[-/.])(?P<month>{MONTH})(?P=mark)(?P<year>{YEAR}|[0-9]{{2}})",  # 30-09-2002, 30-09-02
    rf"(?P<year>{YEAR})(?P<month>0[1-9]|1[0-2])(?:0[1-9]|[12][0-9]|3[01])?",  # 200209, 20020930
    rf"(?P<month>{NAME})(?:[-/. ]|\. )(?P<year>{YEAR}|[0-9]{{2}})")]  # sep-02, september 2002
LABEL_ADVICE = f"labels are consecutive months, such as 2002-09, or the numbers 1 to {MONTHS}, or there are none"


def month_in(label: str) -> int | None:
    """The month that a label says, counted from January of the year 0."""
    found = next(filter(None, (form.fullmatch(label) for form in MONTH_FORMS)), None)
    if not found:
        return None
    month = found["month"].lower()
    return 12 * full_year(int(found["year"])) + (MONTH_NAMES.get(month) or int(month)) - 1


def month_name(month: int) -> str:
    return f"{month // 12}-{month % 12 + 1:02}"


def label_faults(rows: dict[int, Row], hint: str) -> Faults:
    """What is wrong with the labels of the rows, by the place of each row among the months, from 1 on."""
    other = [row for place, row in rows.items() if row.cells[0] != str(place)]
    found = {place: month for place, row in rows.items() if (month := month_in(row.cells[0])) is not None}
    if not found:
        return [(row.line, f"{said(row)}; {LABEL_ADVICE}{hint}") for row in other[:1]]
    months = list(found.values())
    if 2 * sum(now < before for before, now in pairwise(months)) > len(months):
        return [(0, f"this goes from {month_name(months[0])} back to {month_name(months[-1])}; the oldest month must be first")]
    unknown = [row for place, row in rows.items() if place not in found]
    return [(row.line, f"{said(row)} where a month must stand, such as 2002-09") for row in unknown] + order_faults(rows, found)


def order_faults(rows: dict[int, Row], found: dict[int, int]) -> Faults:
    """The labels that are not the month behind the one before; of a row whose label says no month, its place counts."""
    faults = []
    for (before, earlier), (place, month) in pairwise(found.items()):
        due = earlier + place - before
        if month != due:
            reason = (f"{counted(month - due, ('months are', 'month is'))} missing" if month > due else
                      "the month is repeated" if month == earlier else "the months must be in order, oldest first")
            faults.append((rows[place].line, f"{said(rows[place])} where {month_name(due)} must stand: {reason}"))
    return faults


def said(row: Row) -> str:
    return f'line {row.line}, cell 1, is "{printable(row.cells[0])}"'


# ---------------------------------------------------------------- CSV

def from_csv(data: bytes, unit: str | None = None, option: str = "--unit") -> Months:
    """The months of a CSV file; raises Wrong. The unit of bare rates may be said, by the option that the faults name."""
    try:
        sheet = sheet_of(data, "a CSV file")
    except Bad as bad:
        raise Wrong([f"this {bad}"]) from None
    width = usual_width(sheet)
    hint = f"; if its commas are decimal marks, {COMMA_ADVICE}" if sheet.commas else ""
    if width > 2:
        raise Wrong([f"this {size_of(sheet)}; it must have {MONTHS} lines, each with a month and its forward rate, "
                     f"or with the rate alone, oldest month first{hint}"])
    header = sheet.rows[0] if all(is_word(cell) or units_in(cell) for cell in sheet.rows[0].cells) else None
    rows = dict(enumerate(sheet.rows[header is not None:], 1))
    column, faults = column_unit(header if header and len(header.cells) == width else None, unit, option)
    is_known, faults = not faults, faults + shape_faults(rows, width)
    whole_rows = {place: row for place, row in rows.items() if len(row.cells) == width}
    if width == 2:
        faults += label_faults(whole_rows, hint)
    rates, rate_faults = rates_of(list(whole_rows.values()), column, option) if is_known else ([], [])
    faults += rate_faults
    if faults:
        raise Wrong([sentence for _, sentence in sorted(faults, key=lambda fault: fault[0])])
    return Months(rates, month_in(rows[MONTHS].cells[0]) if width == 2 else None)


def units_in(header: str) -> list[Unit]:
    """The units that a header names: as the whole of it or of what is in brackets, behind "in", or as a sign at its end."""
    parts = [] if has_digit(header) else re.split(r"[()\[\]]", header.casefold())
    words = [re.sub(r"^.*\bin\s", "", part) for part in parts]
    words += [sign for part in parts[-1:] for sign in re.findall(r"\s(%|bp)$", part)]
    return list(dict.fromkeys(unit for word in words if (unit := RATE.column_unit(word))))


def column_unit(header: Row | None, asked: str | None, option: str) -> tuple[Unit | None, Faults]:
    """The unit of the rates that carry none, by the header over them or as asked for; None where neither names one."""
    named, wanted = units_in(header.cells[-1]) if header else [], RATE.column_unit(asked or "")
    if asked is not None and not wanted:
        return None, [(0, f'{option} is "{printable(asked)}"; it must be {UNIT_NAMES}')]
    if wanted and named and named != [wanted]:
        names = listed([unit.name for unit in named])
        return None, [(header.line, f"line {header.line}, cell {len(header.cells)}, names the unit {names}, "
                                    f"but {option} is {wanted.name}")]
    return wanted or (named[0] if len(named) == 1 else None), []


def shape_faults(rows: dict[int, Row], width: int) -> Faults:
    faults = [(0, f"this has {counted(len(rows), ('months', 'month'))}; it must have {MONTHS}, a line a month")]
    return (faults if len(rows) != MONTHS else []) + [
        (row.line, f"line {row.line} has {counted(len(row.cells), CELLS)}, where most lines have {width}")
        for row in rows.values() if len(row.cells) != width]


def rates_of(rows: list[Row], unit: Unit | None, option: str) -> tuple[list[int], Faults]:
    """The rates, which stand last in their rows; those without a unit are one fault, and so are those that could be fractions."""
    cells = {Cell(row.cells[-1], f"line {row.line}, cell {len(row.cells)},"): row.line for row in rows}
    bare = [cell for cell in cells if not unit and is_bare(cell.text)]
    fine = likely_fractions(list(cells), unit)
    faults, rates = [], []
    if bare:
        faults.append((cells[bare[0]], f"{without_unit(bare)}; {MONTH_NUMBER.advice}, or name the unit of all, {UNIT_NAMES}, "
                                       f'in the header over them, as in "rate (%)", or by {option}'))
    if fine:
        first = next(iter(fine))
        faults.append((cells[first], f"{all_too_fine(fine)}; {fraction_question(first.text, MONTH_NUMBER)} Then write "
                                     f'"rate (fraction)" over them, or {option} fraction' + ("" if is_bare(first.text) else ", and no %")))
    for cell, line in cells.items():
        try:
            rates += [] if cell in bare or cell in fine else [quantity(cell.text, MONTH_NUMBER, unit)]
        except Bad as bad:
            faults.append((line, f"{cell.place} {bad}"))
    return rates, faults


def likely_fractions(cells: list[Cell], unit: Unit | None) -> dict[Cell, NotWhole]:
    """The rates with too many decimals, where all rates could be fractions but are not said to be."""
    asks = not (unit and unit.is_bare) and could_be_fractions([cell.text for cell in cells], MONTH_NUMBER)
    return not_whole(cells, MONTH_NUMBER, unit) if asks else {}


def to_csv(rates: list[int]) -> str:
    """The months as CSV, which gives the same months again."""
    return "month;forward rate\n" + "".join(f"{place};{shown(rate, RATE)}\n" for place, rate in enumerate(rates, 1))


# ---------------------------------------------------------------- bytes

def start_faults(start: int) -> list[str]:
    return [] if 0 <= start < MONTHS else [f"refused, 17: the start index is {start}; it must be 0 to {MONTHS - 1}"]


def write(rates: list[int], start: int) -> bytes:
    """The history of months that come oldest first; raises Wrong."""
    if faults := start_faults(start):
        raise Wrong(faults)
    return RING.pack(*rates[MONTHS - start:], *rates[:MONTHS - start])


def read(data: bytes, start: int) -> list[int]:
    """The months of a history in steps, oldest first; raises Wrong."""
    faults = start_faults(start)
    if len(data) != RING.size:
        faults.append(f"refused, 17: the history has {len(data):,} bytes; it must have {RING.size}")
    if faults:
        raise Wrong(faults)
    ring = RING.unpack(data)
    rates = [*ring[start:], *ring[:start]]
    wrong = {place: rate for place, rate in enumerate(rates) if not MONTH_NUMBER.least <= rate <= MONTH_NUMBER.most}
    if wrong:
        raise Wrong([str(Fault(18, (start + place) % MONTHS * MONTH_NUMBER.length,
                               out_of_limits(f"month {place + 1}", rate, MONTH_NUMBER))) for place, rate in wrong.items()])
    return rates
