"""CSV files as spreadsheets write them, of days and of flows.

Terms, dates and numbers of days are recognised as labels. All else must be said, and what could be read in two ways is refused.
"""

import sys
import tempfile
import unittest
from datetime import date
from hashlib import sha256
from pathlib import Path
from unittest import mock

from tests import ROOT

sys.path[:0] = [str(ROOT / "tools")]
from casetext import RefusedText, Wrong, from_toml, read, to_toml, write
from casetext.sheets import read_bytes

CASE = read((ROOT / "cases" / "up.case").read_bytes())
TEXT = to_toml(CASE)
BEFORE, AFTER = TEXT[:TEXT.index('unit = "%"')], TEXT[TEXT.index("[flows]"):]
TERMS = [str(term) for term in range(1, 61)]
DATES = ["02-01-2025", "03-01-2025", "06-01-2025"]
PERCENT = [[f"{rate / 1_000:.3f}" for rate in day] for day in CASE.days]
COMMA = [[cell.replace(".", ",") for cell in day] for day in PERCENT]
BP = [[f"{rate / 10:.1f}" for rate in day] for day in CASE.days]
STEPS = [[str(rate) for rate in day] for day in CASE.days]
FRACTIONS = [[f"{rate / 100_000:.5f}" for rate in day] for day in CASE.days]
FINE_DAYS = [[100 * rate + 7 * term % 100 for term, rate in enumerate(day, 1)] for day in CASE.days]
FINE_PERCENT = [[f"{rate / 100_000:.5f}" for rate in day] for day in FINE_DAYS]
FINE_FRACTIONS = [[f"{rate / 10_000_000:.7f}" for rate in day] for day in FINE_DAYS]
FINE_BP = [[f"{rate / 1_000:.3f}" for rate in day] for day in FINE_DAYS]


def columns(days):
    """A line a term."""
    return [list(row) for row in zip(*days)]


def signed(days):
    return [[cell + "%" for cell in day] for day in days]


def labelled(labels, lines):
    return [[label, *line] for label, line in zip(labels, lines)]


class Sheets(unittest.TestCase):
    def setUp(self):
        folder = tempfile.TemporaryDirectory()
        self.addCleanup(folder.cleanup)
        self.folder = Path(folder.name)
        self.path = self.folder / "sheet.csv"

    def put(self, lines, between=";", end="\n", encoding="utf-8"):
        self.path.write_bytes("".join(between.join(line) + end for line in lines).encode(encoding))

    def faults(self, text):
        with self.assertRaises(Wrong) as caught:
            from_toml(text, self.folder)
        return caught.exception.faults


class Digests(Sheets):
    """Each sheet is read once, and its SHA-256 is told by the name that the text has for it."""
    FLOWS = b"term;flow\n1;31415927\n2;0\n"

    def text(self, pension="flows.csv", bonds="flows.csv"):
        start, end = AFTER.index("pension = ["), AFTER.index("[amounts]")
        return f'{BEFORE}csv = "sheet.csv"\nunit = "%"\n{AFTER[:start]}pension_csv = "{pension}"\nbonds_csv = "{bonds}"\n{AFTER[end:]}'

    def setUp(self):
        super().setUp()
        self.put(PERCENT, end="\r\n", encoding="utf-16")
        (self.folder / "flows.csv").write_bytes(self.FLOWS)

    def test_told(self):
        days, flows = (sha256(data).hexdigest() for data in (self.path.read_bytes(), self.FLOWS))
        case = from_toml(self.text(), self.folder)
        self.assertEqual(case.sheets, {"sheet.csv": days, "flows.csv": flows})
        self.assertEqual(from_toml(self.text("./flows.csv"), self.folder).sheets, {"sheet.csv": days, "./flows.csv": flows, "flows.csv": flows})
        self.assertEqual((from_toml(TEXT).sheets, read(write(case)).sheets), ({}, {}))
        self.assertEqual(read(write(case)), case)  # a digest is no part of the case

    def test_told_of_a_case_that_is_refused(self):
        self.put([["0", "9.9"] * 30])
        with self.assertRaises(RefusedText) as caught:
            from_toml(self.text(), self.folder)
        self.assertEqual(caught.exception.case.sheets["sheet.csv"], sha256(self.path.read_bytes()).hexdigest())

    def test_read_once(self):
        with mock.patch("casetext.parsing.read_bytes", wraps=read_bytes) as counted:
            from_toml(self.text(), self.folder)
        self.assertEqual([call.args[0] for call in counted.call_args_list], ["sheet.csv", "flows.csv"])

    def test_no_name(self):
        for name in ("[]", "{}", "7", "[[1]]"):
            self.assertEqual(self.faults(self.text().replace('"sheet.csv"', name)), ["days.csv is no text; write the name of a CSV file"])


class Days(Sheets):
    def text(self, keys):
        return f'{BEFORE}csv = "sheet.csv"\n{keys}\n{AFTER}'

    def good(self, lines, keys='unit = "%"', days=CASE.days, **how):
        self.put(lines, **how)
        self.assertEqual(from_toml(self.text(keys), self.folder).days, days)

    def bad(self, lines, words, keys='unit = "%"', count=1, **how):
        self.put(lines, **how)
        faults = self.faults(self.text(keys))
        self.assertEqual(len(faults), count, faults)
        self.assertTrue(faults[0].startswith("days.csv"), faults)
        self.assertIn(words, faults[0])

    def test_plain(self):
        for lines in (PERCENT, columns(PERCENT)):
            for between in (",", ";", "\t", " ; ", ", "):
                self.good(lines, between=between)
        for lines in (COMMA, columns(COMMA)):
            for between in (";", "\t"):
                self.good(lines, between=between)
        self.good(STEPS, 'unit = "steps"')
        self.good(BP, 'unit = "bp"')
        self.good(columns(STEPS), 'unit = "steps"', between="\t")
        for lines in (FRACTIONS, columns(FRACTIONS), [TERMS, *FRACTIONS], labelled(["datum", *DATES], [TERMS, *FRACTIONS])):
            self.good(lines, 'unit = "fraction"')
            self.good([[cell.replace(".", ",") for cell in line] for line in lines], 'unit = "Fractie"')
        self.good(PERCENT[:1], days=CASE.days[:1])
        self.good(columns(PERCENT[:1]), days=CASE.days[:1])

    def test_four_bytes(self):
        """Sheets of rates with seven decimals, in each layout."""
        comma = [[cell.replace(".", ",") for cell in day] for day in FINE_PERCENT]
        for unit, cells in (("%", FINE_PERCENT), ("%", comma), ("bp", FINE_BP), ("fraction", FINE_FRACTIONS)):
            keys = f'rate_bytes = 4\nunit = "{unit}"'
            for lines in (cells, columns(cells), labelled(DATES, cells), labelled(["datum", *DATES], [TERMS, *cells]),
                          labelled(["", *TERMS], [DATES, *columns(cells)])):
                self.good(lines, keys, FINE_DAYS)
                self.assertEqual(from_toml(self.text(keys), self.folder).rate_bytes, 4)
            if unit != "fraction":
                self.good([[f"{cell} {unit}" for cell in day] for day in cells], "rate_bytes = 4", FINE_DAYS)
        self.good([TERMS, *FINE_PERCENT], 'rate_bytes = 4\nunit = "%"', FINE_DAYS)
        for keys in ('unit = "bp"', 'rate_bytes = 4\nunit = "bp"'):  # 1 to 60 bp could be rates
            self.bad([TERMS, *(FINE_BP if "4" in keys else BP)], "could be read in 2 ways; write header = true or false", keys)
        self.good(FINE_BP, 'rate_bytes = 4\nunit = "bp"', FINE_DAYS, between=",")
        self.good(columns(FINE_PERCENT), 'rate_bytes = 4\nunit = "%"', FINE_DAYS, between=",")
        self.good(PERCENT, 'rate_bytes = 4\nunit = "%"', [[100 * rate for rate in day] for day in CASE.days])
        self.bad(STEPS, 'is "206 steps"; write it in % or bp', "rate_bytes = 4", count=180, end=" steps\n", between=" steps;")

    def test_more_decimals_than_two_bytes_hold(self):
        """The line and the cell of the first, in one fault for all; no rate is rounded, and the sheet does not choose the form."""
        advice = "for rates to 0.00001 % write rate_bytes = 4 in [days], and the rates in % or bp"
        for unit, cells in (("%", FINE_PERCENT), ("bp", FINE_BP)):
            for keys in (f'unit = "{unit}"', f'rate_bytes = 2\nunit = "{unit}"'):
                self.bad(cells, f"days.csv, line 1, cell 1 of sheet.csv, is {cells[0][0]}, which is no whole number of steps; the nearest "
                                "are ", keys)
                self.bad(cells, f"; 179 other rates have such decimals too; {advice}", keys)
        one = [day[:] for day in PERCENT]
        one[2][6] = "0.35907"
        self.bad(labelled(DATES, one), "days.csv, line 3, cell 8 of sheet.csv, is 0.35907, which is no whole number of steps; the nearest "
                                       f"are 0.359 % and 0.36 %; {advice}")
        one[2][6] = "0.359075"
        self.bad(one, "days.csv, line 3, cell 7 of sheet.csv, is 0.359075, which is no whole number of hundredths of a step; the nearest are "
                      "0.35907 % and 0.35908 %", 'rate_bytes = 4\nunit = "%"')

    def test_fractions_in_percent(self):
        """A sheet of fractions that is said to be in % is asked about; one that is read as such is not."""
        lines = labelled(["datum", *DATES], [TERMS, *FRACTIONS])
        self.bad(lines, "days.csv, line 2, cell 2 of sheet.csv, is 0.00206, which is no whole number of steps; the nearest are 0.002 % "
                        "and 0.003 %")
        self.bad(lines, 'are they fractions, 0.00206 for 0.206 %? Then write unit = "fraction" in [days]; only if')
        self.bad(lines, "is 0.00206 without a unit, and so are 179 other rates", "")

    def test_a_lone_mark_in_two_bytes(self):
        """No rate is accepted because its other reading is out of limits."""
        for unit, cells, cell, fault in (("steps", STEPS, "12.000", '"12.000", which could be read in two ways'),
                                         ("steps", STEPS, "226,000", '"226,000", which could be read in two ways'),
                                         ("steps", STEPS, "10.001", "10.001, which is no whole number of steps"),
                                         ("bp", BP, "1.200", '"1.200", which could be read in two ways'),
                                         ("bp", BP, "22,600", '"22,600", which could be read in two ways'),
                                         ("bp", BP, "22.613", "22.613, which is no whole number of steps")):
            one = [day[:] for day in cells]
            one[1][3] = cell
            self.bad(one, f"days.csv, line 2, cell 4 of sheet.csv, is {fault}", f'unit = "{unit}"')
            self.bad(columns(one), f"days.csv, line 4, cell 2 of sheet.csv, is {fault}", f'unit = "{unit}"')

    def test_too_fine_and_unclear(self):
        """Three decimals in bp without the key: one fault for all that four bytes hold, and one for each that could be thousands."""
        some = [[f"{20 + 0.001 * term:.3f}" for term in range(60)]]
        some[0][7], some[0][9] = "22.600", "1.000"
        self.put(some)
        faults = self.faults(self.text('unit = "bp"'))
        self.assertEqual([fault.split(" of sheet.csv, is ")[0] for fault in faults],
                         [f"days.csv, line 1, cell {cell}" for cell in (2, 1, 8, 10)])
        self.assertIn("; 56 other rates have such decimals too; for rates to 0.00001 % write rate_bytes = 4 in [days]", faults[0])
        for fault in faults[1:]:
            self.assertIn("could be read in two ways", fault)

    def test_thousands_of_bp(self):
        """1.000 bp could be 10 %; in four bytes any other rate with three decimals cannot be one of thousands."""
        one = [day[:] for day in FINE_BP]
        one[1][3] = "1.000"
        self.bad(one, 'line 2, cell 4 of sheet.csv, is "1.000", which could be read in two ways; write 1 or 1000',
                 'rate_bytes = 4\nunit = "bp"')
        for cell in ("1.0", "1,00", "0.999", "1.001", "1.200", "12.000", "22,600"):
            one[1][3] = cell
            days = [day[:] for day in FINE_DAYS]
            days[1][3] = round(1_000 * float(cell.replace(",", ".")))
            self.good(one, 'rate_bytes = 4\nunit = "bp"', days)

    def test_as_spreadsheets_write(self):
        self.good(COMMA, end=";;\r\n\r\n;;\r\n")
        self.good(COMMA, encoding="utf-8-sig")
        self.good(COMMA, between="\t", end="\r\n", encoding="utf-16")
        self.put(COMMA, "\t", "\r\n", "utf-16-be")
        self.path.write_bytes(b"\xfe\xff" + self.path.read_bytes())
        self.assertEqual(from_toml(self.text('unit = "%"'), self.folder).days, CASE.days)
        self.good([[f'"{cell}"' for cell in line] for line in COMMA], between=",")
        self.good([["sep=;"], *COMMA])
        self.good(labelled(["één", *DATES], [[term + " jaar" for term in TERMS], *COMMA]), encoding="cp1252")
        self.good(labelled(['"a\nb"', *DATES], [TERMS, *COMMA]), end="\r\n")

    def test_cells_with_units(self):
        for keys in ("", 'unit = "%"', 'unit = "percent"'):
            self.good(signed(COMMA), keys)
            self.good(labelled(["term", *TERMS], [DATES, *columns(signed(COMMA))]), keys)
        self.good([[cell + " bp" for cell in day] for day in BP], "")
        self.bad(signed(PERCENT), 'is "0.206%", but the unit of its table is bp', 'unit = "bp"', count=180)
        self.bad(PERCENT, "days.csv, line 1, cell 1 of sheet.csv, is 0.206 without a unit, and so are 179 other rates", "")
        mixed = [day[:] for day in signed(PERCENT)]
        mixed[1][4] = "0.341"
        self.bad(mixed, "line 2, cell 5 of sheet.csv, is 0.341 without a unit; write", "")

    def test_header_and_labels(self):
        for cells in (PERCENT, COMMA):
            numbers = ["1", "2", "3"]
            for days, said in ((DATES, ("", "")), (numbers, ('\nlines = "days"', '\nlines = "terms"'))):
                self.good(labelled(days, cells), 'unit = "%"' + said[0])
                self.good([days, *columns(cells)], 'unit = "%"' + said[1])
                for corner in ("", "date", "2012", "1", "03-09-2012", "-"):
                    self.good(labelled([corner, *days], [TERMS, *cells]))
                    self.good(labelled([corner, *TERMS], [days, *columns(cells)]))
            for lines in (labelled(numbers, cells), [numbers, *columns(cells)]):  # the first three terms of 60 days look so too
                self.bad(lines, 'could be read in 2 ways; write lines = "days" or "terms"')
            self.good([TERMS, *cells])
            self.good(labelled(TERMS, columns(cells)))
        self.good(labelled(["date", *DATES], [TERMS, *BP]), 'unit = "bp"')
        for day in DATES:  # one day; a lone 1 could be a rate
            self.good(labelled([day], PERCENT[:1]), days=CASE.days[:1])
            self.good([[day], *columns(PERCENT[:1])], days=CASE.days[:1])
        self.bad(labelled(["1"], PERCENT[:1]), "has 1 line of 61 cells")
        self.bad([["1"], *columns(PERCENT[:1])], "has 61 lines of 1 cell")

    def test_terms_as_labels(self):
        for word in ("", ",0", ".0", "y", "Y", " yr", "yrs", " Year", " years", "j", "J.", " jr.", "jr", " jaar", "JAAR", " jaren"):
            labels = [term + word for term in TERMS]
            self.good([labels, *PERCENT])
            self.good(labelled(labels, columns(PERCENT)))
            self.good(labelled(["", *labels], [DATES, *columns(PERCENT)]))
        for form in ("{}M", "{} maand", "{}e kwartaal", "t-{}", "{},5 jaar", "{}/12", "{}e jaar", "year {}", "{} jaar t/m", "({})"):
            labels = [form.format(term) for term in TERMS]
            for lines in ([labels, *PERCENT], labelled(labels, columns(PERCENT))):
                self.bad(lines, f'days.csv, line 1, cell 1 of sheet.csv, is "{labels[0]}"', count=60)
            self.bad(labelled(["", *DATES], [labels, *PERCENT]), "has 4 lines of 61 cells")
            for lines, keys in (([labels, *PERCENT], "header = true"), (labelled(labels, columns(PERCENT)), "labels = true")):
                self.bad(lines, f'has at line 1, cell 1 of sheet.csv, "{labels[0]}" where the term 1 must stand', f'unit = "%"\n{keys}')

    def test_dates(self):
        for good in ("2012-09-{:02}", "{:02}-09-2012", "{}/9/2012", "{}.9.2012", "201209{:02}", "{}-9-12", "{:02}.09.12", "2012/9/{}"):
            dates = [good.format(day) for day in (3, 4, 28)]
            self.good(labelled(dates, PERCENT))
            self.good([dates, *columns(PERCENT)])
        for bad in ("9/{}/2012/1", "{}.9-2012", "2012{:02}", "dag {}", "115{}", "2012-W{}", "{}:00", "0,{}", "", "-", "2012-09-{} x"):
            dates = [bad.format(day) for day in (3, 4, 28)]
            self.bad(labelled(dates, PERCENT), "has 3 lines of 61 cells; it must have 60 rates in each")
            self.bad([["x" + date for date in dates], *columns(PERCENT)], "has 61 lines of 3 cells; it must have 60 rates in each")
            self.good(labelled(dates, PERCENT), 'unit = "%"\nlabels = true')
            self.good([["x" + date for date in dates], *columns(PERCENT)], 'unit = "%"\nheader = true')
        words = "where a date must stand, another than those before it"
        self.bad(labelled([DATES[0], DATES[1], DATES[1]], PERCENT), f'has at line 3, cell 1 of sheet.csv, "{DATES[1]}" {words}')
        self.bad([[DATES[0], DATES[0], DATES[1]], *columns(PERCENT)], f'has at line 1, cell 2 of sheet.csv, "{DATES[0]}" {words}')
        for other in ("Gemiddelde", "Stdev 2012", "", "31-02"):
            self.bad(labelled([*DATES, other], [*PERCENT, PERCENT[0]]), f'has at line 4, cell 1 of sheet.csv, "{other}" {words}')
            self.bad(labelled(["", *DATES, other], [TERMS, *PERCENT, PERCENT[0]]), f'has at line 5, cell 1 of sheet.csv, "{other}"')
            if other:
                self.bad([[*DATES, other], *columns([*PERCENT, PERCENT[0]])], f'line 1, cell 4 of sheet.csv, "{other}" {words}')
        self.bad([DATES + ["07-01-2025"], *columns(PERCENT)], "has 4 cells in line 1, where most lines have 3")

    def odd_date(self, label, advice):
        """A label that is not taken is told by its cell, wherever it stands among dates and in either direction, and where all are so."""
        for place in range(3):
            dates = DATES[:place] + [label] + DATES[place + 1:]
            words = f'cell {{}} of sheet.csv, "{label}" where a date must stand, {advice}'
            for unit, cells in (("%", PERCENT), ("bp", BP), ("fraction", FRACTIONS)):
                keys = f'unit = "{unit}"'
                self.bad(labelled(dates, cells), f"days.csv has at line {place + 1}, {words.format(1)}", keys)
                self.bad([dates, *columns(cells)], f"days.csv has at line 1, {words.format(place + 1)}", keys)
                self.bad(labelled(["datum", *dates], [TERMS, *cells]), f"has at line {place + 2}, {words.format(1)}", keys)
                self.bad(labelled(["", *TERMS], [dates, *columns(cells)]), f"has at line 1, {words.format(place + 2)}", keys)
            self.good(labelled(dates, PERCENT), 'unit = "%"\nlabels = true')
        self.bad(labelled(["datum", label], [TERMS, PERCENT[0]]), f"has at line 2, {words.format(1)}")

    def test_dates_that_are_not_taken(self):
        such, month_first = "such as 2012-09-03", "the day before the month; if the month stands first here, write all the dates as "
        for label, advice in (
                ("09/13/2012", month_first + "2012-09-13"), ("9-13-12", month_first + "2012-09-13"), ("12.31.1999", month_first + "1999-12-31"),
                ("41155", f"{such}; this looks like a spreadsheet's number of a day"), ("41155,0", f"{such}; this looks like"),
                ("03-09-2112", "of a year from 1900 to 2099"), ("2112-09-03", "of a year"), ("3/9/1812", "of a year from 1900 to 2099"),
                *((label, f"with its month as a number, {such}") for label in (
                    "3-sep-2012", "3 september 2012", "03-Sep-12", "3sep2012", "3. sept. 2012", "Sep 3, 2012", "september 3 2012", "3 mei")),
                ("31-02-2012", "and there is no such day"), ("2013-02-29", "and there is no such day"), ("20120931", "and there is no such day"),
                ("30-2-12", "and there is no such day"), ("2012-13-03", such), ("33-09-2012", such), ("13-13-2012", such)):
            self.odd_date(label, advice)
        for label in ("29-02-2012", "2000-02-29", "31-12-99"):  # a leap year's day is taken
            self.good(labelled([label, *DATES[1:]], PERCENT))

    def test_dates_with_the_month_first(self):
        """All of them, so that most are no dates; where each fits both orders, the day comes first."""
        days = ["09/03/2012", "09/13/2012", "09/14/2012"]
        self.bad(labelled(days, PERCENT), 'has at line 2, cell 1 of sheet.csv, "09/13/2012" where a date must stand, the day before the month')
        self.good(labelled(["09/03/2012", "09/04/2012", "09/12/2012"], PERCENT))
        self.assertEqual(self.dates(), [date(2012, 3, 9), date(2012, 4, 9), date(2012, 12, 9)])
        self.bad(labelled(["41155", "41156", "41157"], PERCENT), 'line 1, cell 1 of sheet.csv, "41155" where a date must stand')

    def test_repeated_dates(self):
        words = "where a date must stand, another than those before it"
        for form in ("03-01-2025", "3-1-25", "2025/01/03", "20250103"):  # in another form too
            self.bad(labelled([*DATES[:2], form], PERCENT), f'has at line 3, cell 1 of sheet.csv, "{form}" {words}')
            self.bad([[*DATES[:2], form], *columns(PERCENT)], f'has at line 1, cell 3 of sheet.csv, "{form}" {words}')

    def dates(self, keys='unit = "%"'):
        return from_toml(self.text(keys), self.folder).dates

    def test_dates_of_the_days(self):
        """Told in the order of the days, where the labels are dates; they are no part of the case."""
        told = [date(2012, 9, 3), date(2012, 8, 28), date(1999, 12, 31)]
        for labels in (["03-09-2012", "28-08-2012", "31-12-1999"], ["3-9-12", "28.08.12", "31/12/99"], ["2012-09-03", "20120828", "1999.12.31"]):
            for lines in (labelled(labels, PERCENT), [labels, *columns(PERCENT)], labelled(["datum", *labels], [TERMS, *PERCENT]),
                          labelled(["", *TERMS], [labels, *columns(PERCENT)])):
                self.good(lines)
                self.assertEqual(self.dates(), told)
        self.good(labelled(labels, PERCENT), 'unit = "%"\nlabels = true')
        self.assertEqual(self.dates('unit = "%"\nlabels = true'), told)
        self.assertEqual(from_toml(self.text('unit = "%"'), self.folder), CASE)
        self.good(labelled(["01-01-70", "01-01-69", "01-01-00"], PERCENT))
        self.assertEqual([day.year for day in self.dates()], [1970, 2069, 2000])

    def test_days_without_dates(self):
        self.assertIsNone(from_toml(TEXT).dates)
        for lines, keys in ((PERCENT, ""), (labelled("123", PERCENT), 'lines = "days"'), (labelled(["a", "b", "c"], PERCENT), "labels = true"),
                            (labelled([*DATES[:2], "31-02-2012"], PERCENT), "labels = true"), ([TERMS, *PERCENT], ""),
                            (labelled([*DATES[:2], DATES[0]], PERCENT), "labels = true"),
                            (labelled(["03-09-2012", *["x"] * 59], columns(PERCENT)), "labels = true\nlines = 'terms'")):
            if "'terms'" in keys:  # over the terms a date is no label
                self.bad(lines, '"03-09-2012" where the term 1 must stand', f'unit = "%"\n{keys}')
                continue
            self.good(lines, f'unit = "%"\n{keys}')
            self.assertIsNone(self.dates(f'unit = "%"\n{keys}'))

    def test_said(self):
        """What is said to be labels may be anything; over the terms, anything without a digit, or the terms."""
        for label in ("rente", "-", "#N/A", ""):
            self.good([[label] * 59 + ["x"], *PERCENT], 'unit = "%"\nheader = true')
            self.good(labelled([label] * 60, columns(PERCENT)), 'unit = "%"\nlabels = true')
            self.good(labelled([label] * 3, PERCENT), 'unit = "%"\nlabels = true')
            self.good(labelled(["x", *DATES], [[label] * 59 + ["x"], *PERCENT]), 'unit = "%"\nheader = true')
        self.good([["title"], *PERCENT], 'unit = "%"\nheader = true')
        words = labelled(["", *DATES], [["rente"] * 60, *PERCENT])
        for keys in ("", "\nheader = false"):
            self.bad(words, "has 4 lines of 61 cells", 'unit = "%"' + keys)
        labels = labelled(["", *DATES, "Gemiddelde"], [["rente 1"] * 60, *PERCENT, PERCENT[0]])
        self.good(labels[1:], 'unit = "%"\nlabels = true', [*CASE.days, CASE.days[0]])
        for lines in (labels, columns(labels)):
            self.bad(lines, '"rente 1" where the term 1 must stand', 'unit = "%"\nheader = true\nlabels = true')
        self.bad(words, 'line 1, cell 2 of sheet.csv, is "rente"', 'unit = "%"\nlabels = true', count=60)
        self.bad([["title 2012"], *PERCENT], '"title 2012" where the term 1 must stand', 'unit = "%"\nheader = true')
        self.bad([["rente"] * 59 + ["60"], *PERCENT], '"rente" where the term 1 must stand', 'unit = "%"\nheader = true')

    def test_first_of_rates(self):
        """A first line or column that is no labels is rates; what is no number in it is an error by its place."""
        for cell in ("-", "#N/A", "n/a", "rente", "x"):
            for lines, place in (([[cell] * 60, *PERCENT], "line 1, cell 2"), ([[cell] * 3, *columns(PERCENT)[1:]], "line 1, cell 2"),
                                 (labelled([cell] * 3, [day[1:] for day in PERCENT]), "line 2, cell 1"),
                                 (labelled([cell] * 60, columns(PERCENT)), "line 2, cell 1")):
                self.put(lines)
                faults = self.faults(self.text('unit = "%"'))
                self.assertEqual(faults[1].split("; ")[0], f'days.csv, {place} of sheet.csv, is "{cell}"')
                self.assertEqual(len(faults), sum(line.count(cell) for line in lines))

    def test_rates_or_labels(self):
        """Where 1, 2, 3, ... could be rates, the text must say."""
        for keys, cells in (('unit = "bp"', BP), ('unit = "steps"', STEPS)):
            self.bad([TERMS, *cells], "could be read in 2 ways; write header = true or false", keys)
            self.good([TERMS, *cells], keys + "\nheader = true")
            own = [int(term) * (10 if cells is BP else 1) for term in TERMS]
            self.good([TERMS, *cells], keys + "\nheader = false", [own, *CASE.days])
            self.bad(labelled(TERMS, columns(cells)), "could be read in 2 ways; write labels = true or false", keys)
            self.good(labelled(TERMS, columns(cells)), keys + "\nlabels = true")
            self.good(labelled(TERMS, columns(cells)), keys + "\nlabels = false", [own, *CASE.days])
        self.bad(labelled(["7", "5", "3"], BP), "has 3 lines of 61 cells", 'unit = "bp"')
        self.good(labelled(["7", "5", "3"], BP), 'unit = "bp"\nlabels = true')

    def test_labels_in_order(self):
        for wrong, at in ((TERMS[::-1], 1), (["0", *TERMS[:-1]], 1), ([*TERMS[1:], "61"], 1), ([*TERMS[:30], *TERMS[31:], "61"], 31),
                          (sorted(TERMS), 2), (TERMS[::2] + TERMS[1::2], 2), ([str(12 * int(term)) for term in TERMS], 1),
                          ([str(2012 + int(term)) for term in TERMS], 1),
                          (["-" + term for term in TERMS], 1), (["ON", *TERMS[:-1]], 1),
                          (["0,5", *TERMS[:-1]], 1), ([*TERMS[:-1], "gemiddelde"], 60)):
            for labels in (wrong, [label + "Y" if label.isdigit() else label for label in wrong]):
                words = f"where the term {at} must stand"
                counting = (words if labels[0] in ("1", "1Y") else "as the last term; the terms are 1 to 60" if labels[1] in ("1", "1Y") else
                            "has rates of day 1 that count as labels do, from ")
                for unit, cells in (("%", PERCENT), ("bp", BP), ("steps", STEPS)):
                    for lines, key in (([labels, *cells], "header"), (labelled(labels, columns(cells)), "labels")):
                        self.bad(lines, counting, f'unit = "{unit}"')
                        self.bad(lines, "rates that count", f'unit = "{unit}"')
                        self.bad(lines, words, f'unit = "{unit}"\n{key} = true')
                    self.bad(labelled(["", *DATES], [labels, *cells]), words, f'unit = "{unit}"')
                    self.bad(labelled(["", *labels], [DATES, *columns(cells)]), words, f'unit = "{unit}"')

    def test_a_term_too_few_or_too_many(self):
        """The cell is told where another term must stand, whatever the shape is, with dates and without."""
        for labels, at, label in ((TERMS[:11] + TERMS[12:], 12, "13"), (TERMS[:12] + TERMS[11:], 13, "12"), (TERMS[:30] + TERMS[33:], 31, "34"),
                                  ([*TERMS[:58], "60"], 59, "60")):
            for word in ("", " jaar"):
                named, rates = [term + word for term in labels], [["0.5"] * len(labels)] * 3
                words = f'cell {{}} of sheet.csv, "{label}{word}" where the term {at} must stand'
                for corner in ("", "datum", "1", "2012"):
                    self.bad(labelled([corner, *DATES], [named, *rates]), f"has at line 1, {words.format(at + 1)}")
                    self.bad(labelled([corner, *named], [DATES, *columns(rates)]), f"has at line {at + 1}, {words.format(1)}")
                self.bad([named, *rates], f"has at line 1, {words.format(at)}")
                self.bad(labelled(named, columns(rates)), f"has at line {at}, {words.format(1)}")
        self.bad(labelled(["", *TERMS[:59]], [DATES, *[["0.5"] * 3] * 59]), 'line 60, cell 1 of sheet.csv, "59" as the last term; the terms are 1 to 60')
        self.bad(labelled(["", *TERMS, "61"], [DATES, *[["0.5"] * 3] * 61]), "has 62 lines of 4 cells; it must have")
        self.bad(labelled(["1", "2", "3", "5"], [["0.5"] * 60] * 4), "has 4 lines of 61 cells")  # rather numbers of days

    def test_more_or_fewer_terms(self):
        dates = [f"2025-{1 + day // 28:02}-{1 + day % 28:02}" for day in range(60)]
        for labels in (["0", *TERMS], [*TERMS, "61", "62", "63", "64", "65"], TERMS[:59]):
            for days in (DATES, dates):
                rates = [["0.5"] * len(labels) for _ in days]
                for word in (" jaar",) if labels == TERMS[:59] else ("", " jaar"):  # 1 to 59 are numbers of days too
                    named = [label + word for label in labels]
                    for lines in (labelled(["", *days], [named, *rates]), labelled(["", *named], [days, *columns(rates)]),
                                  [named, *rates], labelled(named, columns(rates)), labelled(days, rates), [days, *columns(rates)]):
                        self.put(lines)
                        self.faults(self.text('unit = "%"'))
        self.bad(labelled(["", *TERMS, "61"], [dates, *[["0.5"] * 60] * 61]), "has 62 lines of 61 cells")

    def test_orientation(self):
        square = [[f"{0.5 + 0.001 * term + 0.002 * day:.3f}" for term in range(60)] for day in range(65)]
        days = [[500 + term + 2 * day for term in range(60)] for day in range(65)]
        dates = [f"2025-{1 + day // 28:02}-{1 + day % 28:02}" for day in range(65)]
        numbers, years = [str(day) for day in range(1, 66)], [term + " jaar" for term in TERMS]
        ask, by_day, by_term = 'ways; write lines = "days" or "terms" (what a line is) in [days]', *(
            f'unit = "%"\nlines = "{lines}"' for lines in ("days", "terms"))
        for count in (60, 61, 65):
            some, their = square[:count], days[:count]
            for lines in (some, labelled(numbers, some)):
                self.bad(lines, ask)
                self.bad(columns(lines), ask)
                self.good(lines, by_day, their)
                self.good(columns(lines), by_term, their)
            for lines in ([years, *some], labelled(dates, some), labelled(["", *dates], [TERMS, *some]),
                          labelled(["", *numbers], [years, *some])):
                self.good(lines, days=their)
                self.good(columns(lines), days=their)
            told = self.good if count > 60 else lambda lines, days: self.bad(lines, ask)  # 1 to 60 could be 60 days as well
            told([TERMS, *some], days=their)
            told(labelled(TERMS, columns(some)), days=their)
            told(labelled(["", *numbers], [TERMS, *some]), days=their)
            self.bad(labelled([f"dag {day}" for day in numbers], some), ask, 'unit = "%"\nlabels = true')
        self.good([TERMS, *square[:60]], by_day, days[:60])
        self.good([TERMS, *square[:60]], by_term, columns(days[:60]))
        self.good(square[:59], days=days[:59])
        self.good(columns(square[:59]), days=days[:59])
        self.bad([["rente"] * 60, *square[:60]], ask, 'unit = "%"\nheader = true')
        self.bad(PERCENT, "it must have 60 lines of 1 to 70 rates, a line a term", by_term)

    def test_commas(self):
        """A comma between cells could be a decimal comma where the number of cells does not tell."""
        for lines in (columns(COMMA), columns(COMMA[:1]), labelled(TERMS, columns(COMMA)), columns(STEPS[:2])):
            for unit in ("%", "steps"):
                keys = f'unit = "{unit}"\nlabels = {"true" if lines[0][0] == "1" else "false"}'
                self.bad(lines, "has commas only, which could stand between numbers or inside them", keys, between=",")
        minus = [["\u22120", "206"], *[["0", "206"]] * 59]
        self.bad(minus, "has commas only, which could stand between numbers or inside them", 'unit = "steps"', between=",")
        self.bad(COMMA, "if its commas are decimal marks, write semicolons between the cells", between=",")
        self.good(columns(COMMA[:1]), days=CASE.days[:1], end=";\n")
        self.good(STEPS, 'unit = "steps"', between=",")

    def test_shapes(self):
        ragged = [day[:] for day in PERCENT]
        ragged[1].pop()
        self.bad(ragged, "has 59 cells in line 2, where most lines have 60")
        self.bad([day[1:] for day in PERCENT], "has 3 lines of 59 cells; it must have 60 rates in each of 1 to 70 lines, "
                                               "a line a day or 60 lines of 1 to 70 rates, a line a term")
        self.bad([PERCENT[0]] * 71, "has 71 lines of 60 cells")
        self.bad([["title"]], "has 1 line of 1 cell; it must have")
        for top in ([["title"]], [["title", "more"]], [["title 2012"]], [["title"], ["more"]]):
            self.bad([*top, *PERCENT], "in line 1, where most lines have 60")
            self.bad([*top, *labelled(["", *DATES], [TERMS, *PERCENT])], "in line 1, where most lines have 61")
        self.bad([["title"], ["more"], *PERCENT], "has 1 cell in line 1, where most", 'unit = "%"\nheader = true')
        self.bad(labelled([""] * 4, [TERMS, *PERCENT]), "has 4 lines of 61 cells")
        self.bad(labelled([""] * 3, PERCENT), "has 3 lines of 61 cells")
        self.bad(labelled([""] * 4, labelled(["", *DATES], [TERMS, *PERCENT])), "has 4 lines of 62 cells")

    def test_second_labels(self):
        """A second line or column of labels is never taken for rates."""
        for keys, cells in (('unit = "%"', PERCENT), ('unit = "bp"', BP), ('unit = "steps"', STEPS)):
            for lines in ([["title"], TERMS, *cells], labelled([term + "Y" for term in TERMS], labelled(TERMS, columns(cells)))):
                more = "\nheader = true" if lines[0] == ["title"] else "\nlabels = true"
                self.bad(lines, "has rates of day 1 that count as labels do, from 1 on", keys + more)
        for days in (2, 3):  # numbers of days above or before 59 rates are no rates either
            numbers = [str(day) for day in range(1, days + 1)]
            for unit, cells in (("%", PERCENT), ("bp", BP), ("steps", STEPS)):
                self.good([numbers, *columns(cells[:days])], f'unit = "{unit}"\nlines = "terms"', CASE.days[:days])
                self.bad([numbers, *columns(cells[:days])[1:]], "it must have 60 rates in each", f'unit = "{unit}"')
                self.bad(labelled(numbers, [day[1:] for day in cells[:days]]), "it must have 60 rates in", f'unit = "{unit}"')
        counting = [[str(100 + int(term)) for term in TERMS]]
        days = [[1_000 + 10 * int(term) for term in TERMS]]
        self.bad(counting, "has rates of day 1 that count", 'unit = "bp"')
        self.good([[cell + " bp" for cell in counting[0]]], 'unit = "bp"', days)
        self.good(counting, 'unit = "bp"\nheader = false', days)

    def test_cells(self):
        for cell, words in (("", "is empty"), ("n/a", 'is "n/a"; write it in %, bp or steps'), ("12", "must be -1 % to 10 %"),
                            ("0.2065", "no whole number of steps"), ("1.2.3", "no number"), ("0x10", "write it in")):
            sheet = [day[:] for day in PERCENT]
            sheet[2][6] = cell
            self.bad(sheet, "days.csv, line 3, cell 7 of sheet.csv, is ")
            self.bad(sheet, words)

    def test_keys(self):
        self.put(PERCENT)
        for keys, words in (("lines = 'weeks'", 'days.lines must be "days" or "terms"'), ("lines = []", "days.lines must be"),
                            ("header = 1", "days.header must be true or false"), ("labels = 'yes'", "days.labels must be")):
            [fault] = self.faults(self.text(f'unit = "%"\n{keys}'))
            self.assertIn(words, fault)

    def test_unreadable(self):
        for name, words in (("none.csv", "is none.csv, which cannot be read: No such file"), (".", "cannot be read: Is a directory"),
                            ("a\\u0000b", "cannot be read: embedded null"), ("", "is empty; write the name"),
                            ("x" * 5_000, "cannot be read: File name too long"), ("empty", "which holds nothing"),
                            ("open", "cannot be read at line"), ("bytes", "cannot be read"), ("large", "larger than")):
            Path(self.folder, "empty").write_text("\n;;\n\n")
            Path(self.folder, "open").write_text('1;"2\n3;4\n')
            Path(self.folder, "bytes").write_bytes(b"\x81\x8d\x00\xff" * 9)
            Path(self.folder, "large").write_bytes(b"0;" * 2_000_001)
            [fault] = self.faults(self.text('unit = "%"').replace("sheet.csv", name))
            self.assertTrue(fault.startswith("days.csv is "), fault)
            self.assertIn(words, fault)
        [fault] = self.faults(self.text('unit = "%"').replace('"sheet.csv"', "7"))
        self.assertEqual(fault, "days.csv is no text; write the name of a CSV file")


class Flows(Sheets):
    WORTH = [31_415_927, 0, 27_182_818]
    PLAIN = ["31415927", "0", "27182818"]

    def text(self, key="pension"):
        start = TEXT.index(f"{key} = [")
        return f'{TEXT[:start]}{key}_csv = "sheet.csv"\n{TEXT[TEXT.index("]", start) + 1:]}'

    def good(self, lines, flows=WORTH, **how):
        self.put(lines, **how)
        self.assertEqual(from_toml(self.text(), self.folder).pension, flows)
        self.assertEqual(from_toml(self.text("bonds"), self.folder).bonds, flows)

    def bad(self, lines, words, **how):
        self.put(lines, **how)
        faults = self.faults(self.text())
        self.assertTrue(faults[0].startswith("flows.pension_csv"), faults)
        self.assertIn(words, faults[0])

    def test_read(self):
        column = [[cell] for cell in self.PLAIN]
        for flows in (column, [["31.415.927"], ["0"], ["27.182.818"]], [["€ 31.415.927,00"], ["€ 0,00"], ["€ 27.182.818,00"]],
                      [["31415927 euros"], ["0"], ["27182818,00"]]):
            for word in ("", " jaar", "Y", ",0"):
                terms = [term + word for term in "123"]
                [line] = columns(flows)
                for lines in (labelled(terms, flows), labelled(["term", *terms], [["flow"], *flows]),
                              labelled(["Jaar", *terms], [["Kasstroom (€)"], *flows]), [terms, line],
                              labelled(["term", "flow"], [terms, line])):
                    self.good(lines, end=";\n")
                    self.good(lines, end=";;\r\n\r\n;;\r\n")
                    self.good(lines, between="\t", end="\t\r\n", encoding="utf-16")
        self.good(labelled("123", column), between=",")
        self.good([["1", '"31,415,927"'], ["2", "0"], ["3", "27182818"]], between=",")
        self.good([["1", "5000000"]], [5_000_000])
        self.good([["term", "flow"], ["1", "5000000"]], [5_000_000])
        self.good([["term", "1"], ["flow", "5000000"]], [5_000_000])
        self.good([["1", "5000000"], ["2", "4000000"]], [5_000_000, 4_000_000])
        self.good([["1", "2"], ["5000000", "4000000"]], [5_000_000, 4_000_000])
        self.good([["1", "2"], ["3", "4"]], [3, 4])
        self.good([["a", "b"], ["1", "2"], ["2", "4"]], [2, 4])

    def refused(self, lines, words, **how):
        self.bad(lines, words, **how)
        self.bad(lines, "write in each line a term and its flow, or two lines, the terms above and the flows below; the terms are", **how)

    def test_without_terms(self):
        column = [[cell] for cell in self.PLAIN]
        for lines, size in ((column, "3 lines of 1 cell"), ([self.PLAIN], "1 line of 3 cells"), ([["flow"], *column], "4 lines of 1 cell"),
                            ([["pensions", *self.PLAIN]], "1 line of 4 cells"), ([["5000000"]], "1 line of 1 cell"),
                            ([["1"], ["5000000"]], "2 lines of 1 cell"), ([["2025"], ["5000000"]], "2 lines of 1 cell"),
                            ([["1"], ["2"], ["3"]], "3 lines of 1 cell"), ([["1", "2", "3"]], "1 line of 3 cells"),
                            ([["1", "2", "3"]] * 3, "3 lines of 3 cells"), ([["term"]], "1 line of 1 cell"),
                            ([["term", "flow"]], "1 line of 2 cells")):
            self.refused(lines, f"has {size}; ", end=";\n")
            self.bad(lines, "or write the flows in the text itself", end=";\n")
        self.put(column)
        self.assertNotIn("comma", self.faults(self.text())[0])

    def test_not_the_terms(self):
        for labels, at, word in (("0123", 1, "0"), ("2345", 1, "2"), ("4321", 1, "4"), ("1345", 2, "3"), ("1223", 3, "2"),
                                 (["1", "2", "", "4"], 3, ""),
                                 (["2013", "2014", "2015", "2016"], 1, "2013"), (["5Y", "10Y", "15Y", "20Y"], 1, "5Y"),
                                 (["1-5 jaar", "6-10 jaar", "11-15 jaar", "16-20 jaar"], 1, "1-5 jaar"),
                                 (["1M", "2M", "3M", "4M"], 1, "1M"),
                                 (["1e kwartaal", "2", "3", "4"], 1, "1e kwartaal"), (["1", "2 maand", "3", "4"], 2, "2 maand"),
                                 (["jan", "feb", "mrt", "apr"], 1, "jan"), (["t-1", "t-2", "t-3", "t-4"], 1, "t-1"),
                                 (["1", "2", "3", "Totaal"], 4, "Totaal"), (["1", "2", "3", ""], 4, ""), (["1", "2", "3", "> 3"], 4, "> 3"),
                                 (["-1", "-2", "-3", "-4"], 1, "-1"), (["1/12", "2/12", "3/12", "4/12"], 1, "1/12"),
                                 (["0,5 jaar", "1 jaar", "2 jaar", "3 jaar"], 1, "0,5 jaar")):
            flows = ["5000000", "4000000", "3000000", "12000000"]
            words = f'"{word}" where the term {at} must stand'
            self.refused(labelled(labels, [[flow] for flow in flows]), f"has at line {at}, cell 1 of sheet.csv, {words}")
            if labels[-1]:
                self.refused([list(labels), flows], f"has at line 1, cell {at} of sheet.csv, ")
                self.refused(labelled(["term", "flow"], [list(labels), flows]), f"has at line 1, cell {at + 1} of sheet.csv, {words}")

    def test_header_or_not(self):
        """A header is words only; a first flow that is no number is an error by its place."""
        for cell in ("-", "n/a", "8 560 000", "#N/A", "flow", "?"):
            self.bad([["1", cell], ["2", "5000000"], ["3", "5000000"]], f'line 1, cell 2 of sheet.csv, is "{cell}"')
            self.bad([["1", "2", "3"], [cell, "5000000", "5000000"]], f'line 2, cell 1 of sheet.csv, is "{cell}"')
            self.bad([["1", "5000000"], ["2", cell]], f'line 2, cell 2 of sheet.csv, is "{cell}"')
            self.refused([[cell, "5000000"], ["1", "5000000"]], f'line 1, cell 1 of sheet.csv, "{cell}" where the term 1 must')
        for header in (["term", "2013"], ["term", "flow 1"], ["", "flow"], ["term", "€"], ["(term)", "flow"], ["term 1", "flow"]):
            self.refused([header, ["1", "5000000"], ["2", "5000000"]], f'line 1, cell 1 of sheet.csv, "{header[0]}" where the term 1')
        for header in (["flows"], ["term", "flow", "total"]):
            self.refused([header, ["1", "5000000"], ["2", "5000000"]], "in line 1, where most lines have 2")
        self.refused([["a", "b"], ["c", "d"], ["1", "5000000"]], 'line 2, cell 1 of sheet.csv, "c" where the term 1')
        for names in (["", "flow"], ["2013", "flow"], ["term", "2013"], ["term", ""], ["-", "flow"], ["term", "-"]):
            self.refused(labelled(names, [["1", "2", "3"], self.PLAIN]), f'line 1, cell 1 of sheet.csv, "{names[0]}" where the term 1')
        self.bad(labelled(["1", "flow"], [["2", "3"], ["5000000", "5000000"]]), 'line 2, cell 1 of sheet.csv, is "flow"')

    def test_shapes(self):
        self.refused([["1", "5"], ["2"], ["3", "5"]], "has 1 cell in line 2, where most lines have 2", end=";\n")
        self.refused([["1", "5", "5"], ["2", "6", "11"]] * 2, "has 4 lines of 3 cells")
        self.refused([["1", "5"], ["2", "6"], ["3", "5", "9"]], "has 3 cells in line 3, where most lines have 2")
        self.refused([["1", "2", "3"], ["5", "6"]], "has 2 cells in line 2, where most lines have 3")
        self.refused([["1", "2", "3"], ["5", "6", "7", "18"]], "has 4 cells in line 2, where most lines have 3")
        self.refused([["1", "2", "3"], ["5", "6", "7"], ["8", "9", "9"]], "has 3 lines of 3 cells")
        self.refused([["title"], ["1", "2", "3"], ["5", "6", "7"]], "has 1 cell in line 1, where most lines have 3")
        self.bad([["1", "2", "3"], ["5", "", "7"]], "line 2, cell 2 of sheet.csv, is empty")
        self.bad([["1", "2"], ["2", "9"]], "could be read in 2 ways; write a header line")
        self.bad([[str(term), "5"] for term in range(1, 122)], "has 121 flows; it must have 1 to 120")

    def test_values(self):
        for lines, words in (
                ([["1", "1.000"], ["2", "2.000"]],
                 'line 1, cell 2 of sheet.csv, is "1.000", which could be read in two ways; write 1 or 1000'),
                ([["1", "31415927"], ["2", "8,65E+06"]], 'is "8,65E+06"'),
                ([["1", "31415927"], ["2", "0,50"]], "no whole number of euros; the nearest are 0 euros and 1 euro"),
                ([["1", "31415927"], ["2", "100000001"]], "it must be 0 euros to 100000000 euros"),
                (labelled("123", [["2013"], ["2014"], ["2015"]]), "has flows that count as terms do, from 2013 on"),
                ([["1", "2", "3"]] * 2, "has flows that count as terms do, from 1 on")):
            self.bad(lines, words)

    def column(self, *flows):
        """A line a term, and two lines across."""
        return [[str(term), flow] for term, flow in enumerate(flows, 1)], [[str(term) for term in range(1, 1 + len(flows))], list(flows)]

    def test_thousands_in_a_column(self):
        """A number with two marks or more tells that a lone one stands between thousands too."""
        for flows, values in ((["8.651.000", "958.258", "2.957", "12", "0"], [8_651_000, 958_258, 2_957, 12, 0]),
                              (["8,651,000", "958,258", "1,000", "999"], [8_651_000, 958_258, 1_000, 999]),
                              (["€ 8.651.000", "€ 958.258", "958.258 euros", "0"], [8_651_000, 958_258, 958_258, 0]),
                              (["8.651.000,00", "958.258", "958.258,00", "12,00"], [8_651_000, 958_258, 958_258, 12]),
                              (["958.258", "1.000", "8.651.000"], [958_258, 1_000, 8_651_000])):
            for lines in self.column(*flows):
                self.good(lines, values, end=";\n")
        self.good([["1", '"8,651,000"'], ["2", '"958,258"']], [8_651_000, 958_258], between=",")

    def test_thousands_that_nothing_tells(self):
        """No number with two marks, or one that shows that the column was not written in one way."""
        for others in (["865.100"], ["8651000"], ["8.651.000", "8,651,000"], ["8.651.000", "1200000"], ["8.651.000", "2957"],
                       ["8.651.000", "0.123"], ["8.651.000", "31415.927"], ["8.651.000", "12.50"], ["8.651.000", "1.0000"],
                       ["8.651.000", "958,259"], ["8,651,000"], ["8,651,000.00"], ["8.651.000", "01.000"], ["8.651.000", "8,651.00"]):
            for flows in (["958.258", *others], [*others, "958.258"]):
                for lines in self.column(*flows):
                    self.put(lines, end=";\n")
                    faults = self.faults(self.text())
                    told = [fault for fault in faults if 'is "958.258", which could be read in two ways; write 958258 or another' in fault]
                    self.assertEqual(len(told), 1, (flows, faults))

    def test_thousands_of_another_column(self):
        """Each column tells of itself only."""
        start, end = TEXT.index("pension = ["), TEXT.index("[amounts]")
        (self.folder / "bonds.csv").write_text("1;958.258\n2;0\n")
        self.put([["1", "8.651.000"], ["2", "0"]])
        [fault] = self.faults(f'{TEXT[:start]}pension_csv = "sheet.csv"\nbonds_csv = "bonds.csv"\n{TEXT[end:]}')
        self.assertIn('flows.bonds_csv, line 1, cell 2 of bonds.csv, is "958.258", which could be read in two ways', fault)

    def test_commas(self):
        inside = "has commas only, which could stand inside numbers"
        for lines in (["1,234", "2,345"], ["1,234"], ["term,flow", "1,234", "2,345"], ["1,00", "2,00"], ["1,0", "2,500"],
                      ["1,2,3", "8,651,000"]):
            self.bad([[line] for line in lines], inside)
        for lines in (["1,8,651,000"], ["1,8,651,000", "2,8,884,000"], ["1,31415927,00", "2,0,00"], ["31415927,00", "0,00"],
                      ["1,234,567", "2,345,678"], ["1,234,567"] * 3):
            self.refused([[line] for line in lines], "if commas stand inside numbers, write semicolons")
        self.good([["1,5000000"], ["2,0"]], [5_000_000, 0])


if __name__ == "__main__":
    unittest.main()
