"""CSV files as spreadsheets write them: cells, header and labels, and which way the terms go.

Terms, dates and numbers of days are recognised as labels; all else is a number or must be said. A sheet that could be read
in two ways is an error that says how to tell which is meant; nothing is guessed.
"""

import csv
import io
import re
from collections import Counter
from dataclasses import dataclass
from datetime import date
from itertools import product
from pathlib import Path
from typing import Callable

from ginghamowl._shown import counted

from .dates import date_form, date_in, dates_in, meant_for
from .fields import MOST_DAYS, TERMS
from .units import Bad, printable

LARGEST_SHEET = 4_000_000  # bytes; the largest case takes less than 100,000
SEPARATORS = "\t", ";", ","  # the first one that a sheet has stands between its cells
LINES, CELLS = ("lines", "line"), ("cells", "cell")
COMMA_ADVICE = "write semicolons between the cells and at the end of each line, or decimal points in the numbers"


@dataclass(frozen=True)
class Cell:
    """A cell's text and the words for its place."""
    text: str
    place: str


@dataclass(frozen=True)
class Row:
    line: int
    cells: list[str]


@dataclass(frozen=True)
class Sheet:
    name: str
    rows: list[Row]
    commas: bool  # whether commas stand between the cells

    def cell(self, row: Row, column: int) -> Cell:
        return Cell(row.cells[column], f"line {row.line}, cell {column + 1} of {self.name},")

    def bad(self, sentence: str) -> Bad:
        return Bad(f"is {self.name}, which {sentence}")


# ---------------------------------------------------------------- from bytes to rows

def text_of(data: bytes) -> str:
    """UTF-8 or UTF-16 by its byte order mark; else UTF-8, or Windows-1252, which older spreadsheets write."""
    if data.startswith((b"\xff\xfe", b"\xfe\xff")):
        return data.decode("utf-16")
    try:
        return data.decode("utf-8-sig")
    except UnicodeDecodeError:
        return data.decode("cp1252")


def unreadable(name: str, error: Exception) -> Bad:
    return Bad(f"is {name}, which cannot be read: {printable(getattr(error, 'strerror', None) or str(error))}")


def read_bytes(name: object, folder: Path) -> bytes:
    """A CSV file in the folder; of one that is too large, more than a sheet may have."""
    if not isinstance(name, str) or not name:
        raise Bad(f"is {'empty' if name == '' else 'no text'}; write the name of a CSV file")
    try:
        with open(folder / name, "rb") as file:
            return file.read(LARGEST_SHEET + 1)
    except (OSError, ValueError) as error:  # a name with a zero byte is a ValueError
        raise unreadable(printable(name), error) from None


def sheet_of(data: bytes, name: str) -> Sheet:
    """The rows of a CSV file without blank ones, and without blank cells at their ends."""
    if len(data) > LARGEST_SHEET:
        raise Bad(f"is {name}, which is larger than {LARGEST_SHEET:,} bytes")
    try:
        text = text_of(data)
    except ValueError as error:  # in no known encoding
        raise unreadable(name, error) from None
    told = re.match(r"sep=(.)\r?\n", text)  # a spreadsheet's own way to name its separator
    separator = told[1] if told and told[1] in SEPARATORS else next((mark for mark in SEPARATORS if mark in text), ",")
    rows = []
    reader = csv.reader(io.StringIO(text[told.end():] if told else text, newline=""), delimiter=separator, strict=True)
    try:
        for cells in reader:
            while cells and not cells[-1].strip():
                cells.pop()
            if cells:
                rows.append(Row(reader.line_num + bool(told), [cell.strip() for cell in cells]))
    except csv.Error as error:
        raise Bad(f"is {name}, which cannot be read at line {reader.line_num}: {printable(str(error))}") from None
    if not rows:
        raise Bad(f"is {name}, which holds nothing")
    return Sheet(name, rows, separator == "," and "," in text)


# ---------------------------------------------------------------- labels

TERM = re.compile(r"([0-9]{1,9})(?:[.,]0{1,2})?\s*(?:(?:y|yrs?|years?|j|jr|jaar|jaren)\.?)?", re.IGNORECASE)


def term_in(label: str) -> int | None:
    """The term that a label says: a whole number, bare or of years; "7,0" is one too, as some programs write 7."""
    found = TERM.fullmatch(label)
    return int(found[1]) if found else None


def has_digit(cell: str) -> bool:
    return any(mark.isnumeric() for mark in cell)


def is_word(cell: str) -> bool:
    return cell[:1].isalpha() and not has_digit(cell)


def are_terms(cells: list[str]) -> bool:
    return [term_in(cell) for cell in cells] == list(range(1, TERMS + 1))


def are_dates(cells: list[str]) -> bool:
    """Whether all have the form of a date; whether the calendar has such a day is judged once the layout is known."""
    return len(set(cells)) == len(cells) and all(map(date_form, cells))


def are_days(cells: list[str]) -> bool:
    """Dates, or the numbers of the days; a lone 1 could as well be a rate."""
    return are_dates(cells) or len(cells) > 1 and cells == [str(day) for day in range(1, len(cells) + 1)]


def are_counting(cells: list[Cell]) -> bool:
    """Whether cells count, as labels do and rates hardly ever: most go up or down by 1, or by the 12 months of a year."""
    values = [term_in(cell.text.lstrip("+-\u2212")) for cell in cells]
    steps = [b - a for a, b in zip(values, values[1:]) if a is not None and b is not None]
    return len(values) > 2 and (2 * max(steps.count(step) for step in (1, -1, 12)) > len(values) - 1
                                or set(values) == set(range(1, len(values) + 1)))


def wrong_term(labels: list[Cell]) -> str | None:
    """What is wrong with the first label that is not its term."""
    for term, label in enumerate(labels, 1):
        if term_in(label.text) != term:
            return f'has at {label.place} "{printable(label.text)}" where the term {term} must stand'
    return None


# ---------------------------------------------------------------- a sheet of days

@dataclass(frozen=True)
class Layout:
    """How a sheet of days is read: whether a line is a day or a term, and whether it has a header line and a label column.

    As asked for by the text, None where it does not say.
    """
    lines: str | None
    header: bool | None
    labels: bool | None


ADVICE = {"lines": 'lines = "days" or "terms" (what a line is)', "header": "header = true or false (whether line 1 is a header)",
          "labels": "labels = true or false (whether column 1 is labels)"}


@dataclass(frozen=True)
class Edge:
    """A sheet's first line or column, as a layout has it."""
    cells: list[Cell]
    over_terms: bool  # whether it goes along the terms, and not along the days
    are_labels: bool
    said: bool | None  # what the text says of it

    @property
    def texts(self) -> list[str]:
        return [cell.text for cell in self.cells]


def days_in(sheet: Sheet, asked: Layout,
            could_be_rates: Callable[[list[str]], bool]) -> tuple[list[list[Cell]], list[date] | None]:
    """The cells of each day, term by term, and the dates of the days where their labels say them; raises Bad."""
    layout, both = the_layout(sheet, asked, could_be_rates)
    block = [[sheet.cell(row, column) for column in range(layout.labels, len(row.cells))] for row in sheet.rows[layout.header:]]
    by_day = layout.lines == "days"
    if not by_day and sheet.commas and commas_could_be_decimal(block):
        raise sheet.bad(f"has commas only, which could stand between numbers or inside them; {COMMA_ADVICE}")
    days = block if by_day else [list(day) for day in zip(*block)]
    # The terms 0 to 60 on 60 days look like 61 days, and the terms 1 to 30 on 60 days like days that are numbered.
    if not asked.lines and (len(days) >= TERMS or any(map(is_numbered, both))) and not any(map(tells, both)):
        raise sheet.bad(f"could be read in 2 ways; write {ADVICE['lines']} in [days]")
    if (asked.header if by_day else asked.labels) is not False:
        check_counting(sheet, days)
    return days, next((dates_in(edge.texts) for edge in both if edge.are_labels and not edge.over_terms), None)


def the_layout(sheet: Sheet, asked: Layout, could_be_rates: Callable[[list[str]], bool]) -> tuple[Layout, tuple[Edge, Edge]]:
    """The one layout that a sheet has, and the edges; raises Bad."""
    shaped = {layout: edges(sheet, layout, asked) for layout in all_layouts(asked) if has_shape(sheet, layout, asked)}
    found = [(layout, both) for layout, both in shaped.items() if all(fits(edge, could_be_rates) for edge in both)]
    if not found:
        nearest = sorted(shaped.values(), key=lambda both: distance(both, could_be_rates))
        fault = term_fault(sheet) or next(filter(None, (label_fault(edge) for both in nearest for edge in both)), None)
        raise Bad(fault) if fault else sheet.bad(shape_fault(sheet, asked))
    if len(found) > 1:
        unclear = [ADVICE[key] for key in ADVICE if len({getattr(layout, key) for layout, _ in found}) > 1]
        raise sheet.bad(f"could be read in {len(found)} ways; write {' and '.join(unclear)} in [days]")
    for edge in found[0][1]:
        if edge.are_labels and are_dates(edge.texts) and (fault := label_fault(edge)):
            raise Bad(fault)
    return found[0]


def all_layouts(asked: Layout) -> list[Layout]:
    """Every layout that agrees with what the text says."""
    every = [Layout(*chosen) for chosen in product(("days", "terms"), (False, True), (False, True))]
    return [layout for layout in every if asked.lines in (None, layout.lines) and asked.header in (None, layout.header)
            and asked.labels in (None, layout.labels)]


def has_shape(sheet: Sheet, layout: Layout, asked: Layout) -> bool:
    """Whether the lines are of one length, and of a length and number that the layout may have."""
    lines = len(sheet.rows) - layout.header
    widths = {len(row.cells) - layout.labels for row in sheet.rows[bool(asked.header):]}  # a header that was said may be a title
    if len(widths) != 1:
        return False
    terms, days = (widths.pop(), lines) if layout.lines == "days" else (lines, widths.pop())
    return terms == TERMS and 1 <= days <= MOST_DAYS


def edges(sheet: Sheet, layout: Layout, asked: Layout) -> tuple[Edge, Edge]:
    """The first line without the corner above a label column, and the first column without that above it."""
    by_day, top = layout.lines == "days", sheet.rows[0]
    line = [sheet.cell(top, column) for column in range(layout.labels, len(top.cells))]
    column = [sheet.cell(row, 0) for row in sheet.rows[layout.header:]]
    return Edge(line, by_day, layout.header, asked.header), Edge(column, not by_day, layout.labels, asked.labels)


def fits(edge: Edge, could_be_rates: Callable[[list[str]], bool]) -> bool:
    """Whether an edge is what the layout takes it for: because the text says so, or by itself."""
    if edge.are_labels and edge.over_terms:
        return are_terms(edge.texts) or bool(edge.said) and not any(map(has_digit, edge.texts))
    if edge.said is not None:
        return True
    if edge.are_labels:
        return are_days(edge.texts)
    if are_terms(edge.texts):
        return could_be_rates(edge.texts)
    return not are_days(edge.texts)


def tells(edge: Edge) -> bool:
    """Whether labels tell which way the terms go; numbers of days do not, since they could be terms."""
    return edge.are_labels and (are_terms if edge.over_terms else are_dates)(edge.texts)


def is_numbered(edge: Edge) -> bool:
    """Whether labels were recognised as the numbers of days."""
    return edge.are_labels and not edge.over_terms and edge.said is None and not are_dates(edge.texts)


def distance(both: tuple[Edge, Edge], could_be_rates: Callable[[list[str]], bool]) -> tuple[int, int]:
    """How far a layout is from fitting: its edges that do not fit, and the labels of its days that are no dates."""
    unfit = sum(not fits(edge, could_be_rates) for edge in both)
    return unfit, sum(len(odd_dates(edge.cells)) for edge in both if not edge.over_terms)


def label_fault(edge: Edge) -> str | None:
    """The label to blame where no layout fits: one among terms that is not its term, or one among dates that is none."""
    if edge.over_terms:
        return wrong_term(edge.cells) if edge.said or are_counting(edge.cells) else None
    return date_fault(edge.cells) if edge.are_labels and edge.said is None else None


def odd_dates(cells: list[Cell]) -> list[Cell]:
    """The labels that are no dates, or dates of labels before them."""
    days = [date_in(cell.text) for cell in cells]
    return [cell for place, (cell, day) in enumerate(zip(cells, days)) if day is None or day in days[:place]]


def date_fault(cells: list[Cell]) -> str | None:
    """What is wrong with the first odd label, where most are dates or were meant for some; a word in front may be of a header."""
    odd, meant = odd_dates(cells), [cell for cell in cells if date_in(cell.text) or meant_for(cell.text)]
    if not odd or 2 * len(meant) <= len(cells) or odd[0] is cells[0] and cells[0] not in meant:
        return None
    how = meant_for(odd[0].text) or "another than those before it"
    return f'has at {odd[0].place} "{printable(odd[0].text)}" where a date must stand, {how}'


def counted_terms(cells: list[Cell]) -> list[Cell]:
    """The labels that count from 1 on, behind a corner or not; none where there are few, which are rather the numbers of days."""
    return next((labels for labels in (cells[1:], cells)
                 if 2 * len(labels) > TERMS and are_counting(labels) and term_in(labels[0].text) == 1), [])


def term_fault(sheet: Sheet) -> str | None:
    """The term to blame where no layout fits, and the first line or column counts."""
    line = [sheet.cell(sheet.rows[0], column) for column in range(len(sheet.rows[0].cells))]
    column = [sheet.cell(row, 0) for row in sheet.rows]
    return wrong_term(counted_terms(line)) or wrong_term(counted_terms(column))


def check_counting(sheet: Sheet, days: list[list[Cell]]) -> None:
    """Labels that are not the terms, or a second line or column of labels, must not be taken for rates."""
    for place, day in enumerate(days, 1):
        labels = counted_terms(day) if are_counting(day) else []
        fault = wrong_term(labels)
        if not fault and 0 < len(labels) < TERMS:
            fault = f'has at {labels[-1].place} "{printable(labels[-1].text)}" as the last term; the terms are 1 to {TERMS}'
        if fault:
            raise Bad(f"{fault}; rates that count as terms do must carry their unit in each cell")
        if are_counting(day):
            raise sheet.bad(f"has rates of day {place} that count as labels do, from {printable(day[0].text)} on; labels are the "
                            f"terms 1 to {TERMS}, in one line or column; rates that count must carry their unit in each cell")


def commas_could_be_decimal(block: list[list[Cell]]) -> bool:
    """Whether pairs of cells between commas could as well be numbers with a decimal comma, as in 0,226 for one day."""
    return all(len(row) % 2 == 0 and all(re.fullmatch(r"[+\-\u2212]?[0-9]+", whole.text) and re.fullmatch(r"[0-9]+\D*", rest.text)
                                         for whole, rest in zip(row[::2], row[1::2])) for row in block)


def usual_width(sheet: Sheet) -> int:
    """How many cells most lines have."""
    return Counter(len(row.cells) for row in sheet.rows).most_common(1)[0][0]


def size_of(sheet: Sheet) -> str:
    usual = usual_width(sheet)
    for row in sheet.rows:
        if len(row.cells) != usual:
            return f"has {counted(len(row.cells), CELLS)} in line {row.line}, where most lines have {usual}"
    return f"has {counted(len(sheet.rows), LINES)} of {counted(usual, CELLS)}"


def shape_fault(sheet: Sheet, asked: Layout) -> str:
    wanted = {"days": f"{TERMS} rates in each of 1 to {MOST_DAYS} lines, a line a day",
              "terms": f"{TERMS} lines of 1 to {MOST_DAYS} rates, a line a term"}
    return (f"{size_of(sheet)}; it must have " + (wanted[asked.lines] if asked.lines else " or ".join(wanted.values()))
            + ", beside labels; what is a label, but no term, date or number of a day, is said by header = true or labels = true"
            + (f"; if its commas are decimal marks, {COMMA_ADVICE}" if sheet.commas else ""))


# ---------------------------------------------------------------- a sheet of flows

FLOW_FORMS = ("write in each line a term and its flow, or two lines, the terms above and the flows below; "
              "the terms are 1, 2, 3, ... in order")


def flows_in(sheet: Sheet) -> list[Cell]:
    """The cell of each term's flow, which stands behind its term or below it; raises Bad."""
    forms = [pairs for pairs in (pairs_in_lines(sheet), pairs_across(sheet)) if pairs]
    faults = [wrong_term([term for term, _ in pairs]) for pairs in forms]
    if faults.count(None) > 1:
        raise sheet.bad("could be read in 2 ways; write a header line, or a name before each of the two lines")
    if None not in faults:
        hint = f"; if commas stand inside numbers, {COMMA_ADVICE}" if sheet.commas else ""
        raise (Bad(f"{faults[0]}; {FLOW_FORMS}{hint}") if faults else
               sheet.bad(f"{size_of(sheet)}; {FLOW_FORMS}, or write the flows in the text itself{hint}"))
    flows = [flow for _, flow in forms[faults.index(None)]]
    if sheet.commas and all(re.fullmatch("[0-9]{1,3}", flow.text) for flow in flows):
        raise sheet.bad(f"has commas only, which could stand inside numbers; {COMMA_ADVICE}")
    if are_counting(flows):
        raise sheet.bad(f"has flows that count as terms do, from {printable(flows[0].text)} on; write the flows in their place")
    return flows


def pairs_in_lines(sheet: Sheet) -> list[tuple[Cell, Cell]]:
    """The two cells of each line, but for a header of words; none where a line has more or less."""
    if {len(row.cells) for row in sheet.rows} != {2}:
        return []
    return [(sheet.cell(row, 0), sheet.cell(row, 1)) for row in sheet.rows[all(map(is_word, sheet.rows[0].cells)):]]


def pairs_across(sheet: Sheet) -> list[tuple[Cell, Cell]]:
    """The cells of two lines, one above the other, but for a name before each; none where the lines are not so."""
    width = len(sheet.rows[0].cells)
    if [len(row.cells) for row in sheet.rows] != [width] * 2 or width < 2:  # one above one is more likely two flows
        return []
    start = all(is_word(row.cells[0]) for row in sheet.rows)
    return [(sheet.cell(sheet.rows[0], column), sheet.cell(sheet.rows[1], column)) for column in range(start, width)]
