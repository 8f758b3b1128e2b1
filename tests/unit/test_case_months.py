"""A history of months as CSV and as bytes: every way to write it, its order, its faults and its warnings."""

import random
import sys
import unittest

from tests import ROOT

sys.path[:0] = [str(ROOT / "tools")]
from casetext import Wrong, month_warnings, months

RATES = [5_400 - 25 * month for month in range(120)]
CALENDAR = [(2002 + (8 + month) // 12, (8 + month) % 12 + 1) for month in range(120)]  # September 2002 to August 2012
LABELS = [f"{year}-{month:02}" for year, month in CALENDAR]
PERCENT = [f"{rate / 1_000:.3f} %" for rate in RATES]
ENGLISH = "jan feb mar apr may jun jul aug sep oct nov dec".split()
DUTCH = "januari februari maart april mei juni juli augustus september oktober november december".split()


def lines_of(labels, cells, between=";"):
    return [f"{label}{between}{cell}" for label, cell in zip(labels, cells, strict=True)]


LINES = lines_of(LABELS, PERCENT)


def changed(**lines):
    """The lines with some of them replaced, by their numbers: line_3 is the third."""
    found = list(LINES)
    for name, line in lines.items():
        found[int(name.removeprefix("line_")) - 1] = line
    return found


class Sheets(unittest.TestCase):
    def good(self, lines, end="\n", encoding="utf-8", unit=None):
        found = months.from_csv("".join(line + end for line in lines).encode(encoding), unit)
        self.assertEqual(found.rates, RATES)
        return found.last

    def bad(self, lines, *faults, **how):
        with self.assertRaises(Wrong) as caught:
            months.from_csv("".join(line + "\n" for line in lines).encode(), **how)
        found = caught.exception.faults
        self.assertEqual(len(found), len(faults), found)
        for sentence, words in zip(found, faults):
            self.assertIn(words, sentence)

    def test_units(self):
        for cells in (PERCENT, [cell.replace(".", ",") for cell in PERCENT], [f"{rate / 10:.1f} bp" for rate in RATES],
                      [f"{rate} steps" for rate in RATES], [f"{rate}steps" for rate in RATES[:60]] + PERCENT[60:]):
            self.good(lines_of(LABELS, cells))
            self.good(["maand;rente", *lines_of(LABELS, cells)])
        for between in (",", "\t", " ; "):
            self.good(lines_of(LABELS, PERCENT, between))

    def test_as_spreadsheets_write(self):
        self.good(["month;forward rate", *LINES], ";;\r\n\r\n")
        self.good(LINES, "\r\n", "utf-8-sig")
        self.good(LINES, "\r\n", "utf-16")
        self.good(["sep=;", *LINES])
        self.good(["Termijnrentes per ultimo maand, één reeks", *LINES], encoding="cp1252")
        self.good([f'"{label}","{cell.replace(".", ",")}"' for label, cell in zip(LABELS, PERCENT)])

    def test_labels(self):
        for form in ("{y}-{m:02}", "{y}/{m}", "{m:02}-{y}", "{m}.{y}", "{y}{m:02}", "{y}-{m:02}-28", "28-{m:02}-{y}", "1/{m}/{y}",
                     "{y}{m:02}30", "28-{m:02}-{s:02}", "{e}-{s:02}", "{e} {y}", "{e}.{y}", "{e}. {s:02}", "{d} {y}", "{d}-{s:02}"):
            labels = [form.format(y=year, s=year % 100, m=month, e=ENGLISH[month - 1].title(), d=DUTCH[month - 1])
                      for year, month in CALENDAR]
            self.assertEqual(self.good(lines_of(labels, PERCENT)), 12 * 2012 + 7)  # the newest is August 2012
        self.assertIsNone(self.good(lines_of(range(1, 121), PERCENT)))
        self.assertIsNone(self.good(PERCENT))
        self.assertIsNone(self.good(["forward rate", *PERCENT]))

    def test_years_of_two_digits(self):
        labels = [f"01-{month % 12 + 1:02}-{(1995 + month // 12) % 100:02}" for month in range(120)]
        self.good(lines_of(labels, PERCENT))
        self.assertEqual([months.month_in(f"dec-{year}") for year in ("70", "69")], [12 * 1970 + 11, 12 * 2069 + 11])

    def test_wrong_labels(self):
        self.bad(changed(line_3="2002-13;5.350 %"), 'line 3, cell 1, is "2002-13" where a month must stand')
        self.bad(changed(line_1=";5.400 %", line_120="Q3 2012;2.425 %"), 'line 1, cell 1, is ""', 'line 120, cell 1, is "Q3 2012"')
        advice = "labels are consecutive months, such as 2002-09, or the numbers 1 to 120, or there are none"
        self.bad(lines_of(range(120), PERCENT), f'line 1, cell 1, is "0"; {advice}')
        self.bad(lines_of([*range(1, 120), 121], PERCENT), f'line 120, cell 1, is "121"; {advice}')
        for label in ("x", "03-12", "09-30-2002x", "2002", "1. kwartaal", "-"):
            self.bad(lines_of([label] * 120, PERCENT), f'line 1, cell 1, is "{label}"; {advice}')

    def test_order(self):
        self.bad(lines_of(LABELS[::-1], PERCENT), "this goes from 2012-08 back to 2002-09; the oldest month must be first")
        self.bad(lines_of(LABELS[:60] + LABELS[59:119], PERCENT),
                 'line 61, cell 1, is "2007-08" where 2007-09 must stand: the month is repeated')
        self.bad(lines_of(LABELS[:60] + LABELS[61:] + ["2012-09"], PERCENT),
                 'line 61, cell 1, is "2007-10" where 2007-09 must stand: 1 month is missing')
        self.bad(LINES[:60] + LINES[72:], "this has 108 months; it must have 120",
                 'line 61, cell 1, is "2008-09" where 2007-09 must stand: 12 months are missing')
        self.bad(lines_of([*LABELS[:59], LABELS[60], LABELS[59], *LABELS[61:]], PERCENT), "line 60, cell 1,",
                 'line 61, cell 1, is "2007-08" where 2007-10 must stand: the months must be in order, oldest first',
                 "line 62, cell 1,")
        self.bad(changed(line_120="2002-08;2.425 %"), 'line 120, cell 1, is "2002-08" where 2012-08 must stand')
        self.bad(changed(line_60="?;3.925 %"), 'line 60, cell 1, is "?"')  # its place counts for the month behind it

    def test_rates(self):
        self.bad(lines_of(LABELS, RATES), 'line 1, cell 2, is 5400 without a unit, and so are 119 other rates; '
                                          'write it in %, bp or steps, such as "3.912 %", or name the unit of all, %, bp, steps or '
                                          'fraction, in the header over them, as in "rate (%)", or by --unit')
        self.bad(lines_of(LABELS, RATES), "or by --months-unit", option="--months-unit")
        self.bad(changed(line_4="2002-12;5.325"), "line 4, cell 2, is 5.325 without a unit; write it in")
        self.bad(["rate", *changed(line_4="2002-12;10.001 %", line_5="2003-01;-1.001 %")],
                 "line 5, cell 2, is 10.001 %; it must be -1 % to 10 %", "line 6, cell 2, is -1.001 %; it must be")
        self.bad(changed(line_9="2003-05;5.2005 %"), "which is no whole number of steps; the nearest are 5.2 % and 5.201 %")
        self.bad(changed(line_9="2003-05;5.2 thousandths"), 'line 9, cell 2, is "5.2 thousandths"; write it in')
        self.bad([*PERCENT[:-1], "n/a"], 'line 120, cell 1, is "n/a"; write it in')

    BARE = {"%": [f"{rate / 1_000:.3f}" for rate in RATES], "bp": [f"{rate / 10:.1f}" for rate in RATES],
            "steps": [str(rate) for rate in RATES], "fraction": [f"{rate / 100_000:.5f}" for rate in RATES]}

    def test_units_of_the_column(self):
        for unit, headers in (("%", ["rente (%)", "rente [%]", "rate in %", "Rente (procent)", "rente %", "%", "(%)", "rate (in %)", "Rente in procent",
                                     "rate (end of month) in %", "in percent", "rente (ultimo) (%)"]),
                              ("bp", ["forward rate [bp]", "rate in basis points", "rente (basispunten)", "rente bp", "BP"]),
                              ("steps", ["rate (steps)", "rate in steps"]),
                              ("fraction", ["rate (fraction)", "rente (fractie)", "rate in fractions", "fraction"])):
            for cells in (self.BARE[unit], [cell.replace(".", ",") for cell in self.BARE[unit]]):
                for header in headers:
                    self.good([f"maand;{header}", *lines_of(LABELS, cells)])
                    self.good([header, *cells], end=";\n")
                    self.good([header, *cells], end=";\n", unit=unit)
                self.good(lines_of(LABELS, cells), unit=unit)
                self.good(["maand;rente", *lines_of(LABELS, cells)], unit=f" {unit.upper()}")
        self.good(["maand;rente (%)", *LINES])  # each carries the same
        self.good(LINES, unit="procent")
        self.good(lines_of(LABELS, [*PERCENT[:60], *self.BARE["%"][60:]]), unit="%")

    def test_headers_that_name_no_unit(self):
        words = "line 2, cell 2, is 5.400 without a unit, and so are 119 other rates; write it in %, bp or steps"
        for header in ("rente", "rente (ultimo)", "rente (promille)", "day count fraction", "rente (%) in bp", "rente (% of bp)", "begin %x",
                       "percentage", "rentebp", "rente steps"):
            self.bad([f"maand;{header}", *lines_of(LABELS, self.BARE["%"])], words)
        self.bad(["maand (%);rente", *lines_of(LABELS, self.BARE["%"])], words)  # over the months
        self.bad(["rentes (%)", *lines_of(LABELS, self.BARE["%"])], words)  # a title
        self.bad(["maand;rente (1 %)", *LINES], "this has 121 months", 'line 1, cell 1, is "maand"', 'line 1, cell 2, is "rente (1 %)"')

    def test_units_that_disagree(self):
        bare = lines_of(LABELS, self.BARE["%"])
        self.bad(["maand;rente (bp)", *bare], "line 1, cell 2, names the unit bp, but --unit is %", unit="%")
        self.bad(["maand;rente (%) (bp)", *bare], "line 1, cell 2, names the unit % or bp, but --unit is %", unit="percent")
        self.bad(bare, '--months-unit is "kg"; it must be %, bp, steps or fraction', unit="kg", option="--months-unit")
        self.bad(bare[1:], '--unit is ""; it must be', "this has 119 months", unit="")
        self.bad(["maand;rente (%)", *changed(line_4="2002-12;532.5 bp")], 'line 5, cell 2, is "532.5 bp", but the unit of its table is %')
        self.bad(changed(line_4="2002-12;532.5 bp"), 'line 4, cell 2, is "532.5 bp", but the unit of its table is %', unit="%")
        self.bad(["maand;rate (fraction)", *lines_of(LABELS, [*self.BARE["fraction"][:-1], "2.425 %"])],
                 'line 121, cell 2, is "2.425 %", but the unit of its table is fraction')
        self.bad(["maand;rate (fraction)", *lines_of(LABELS, [*self.BARE["fraction"][:-1], "2.425"])],
                 "line 121, cell 2, is 2.425; it must be -0.01 to 0.1 as a fraction, which is -1 % to 10 %")

    def test_fractions_are_asked_about(self):
        """Where all months could be fractions, in one fault."""
        fractions = [f"{rate / 100_000:.5f} %" for rate in RATES]
        asked = "119 other rates have such decimals too; are they fractions, 0.0541 for 5.41 %? Then write \"rate (fraction)\" over them, or "
        odd = ["0.0541 %", *("0.05005 %" for _ in RATES[1:])]
        self.bad(lines_of(LABELS, odd), f"line 1, cell 2, is 0.0541 %, which is no whole number of steps; the nearest are 0.054 % and 0.055 %; "
                                        f"{asked}--unit fraction, and no %")
        self.bad(["maand;rente (%)", *lines_of(LABELS, [cell.removesuffix(" %") for cell in odd])], f"{asked}--months-unit fraction",
                 option="--months-unit")
        self.bad(lines_of(LABELS, [*fractions[:-1], "n/a"]), "are they fractions, 0.05375 for 5.375 %?", 'line 120, cell 2, is "n/a"')
        for other in ("5.41 %", "0.101 %", "1 bp"):
            with self.assertRaises(Wrong) as caught:
                months.from_csv("\n".join(lines_of(LABELS, [*odd[:-1], other])).encode())
            self.assertEqual((len(caught.exception.faults), "fraction" in str(caught.exception)), (119, False))

    def test_limits(self):
        for cells in (["-1 %"] * 60 + ["10 %"] * 60, ["-100 bp"] * 60 + ["10000 steps"] * 60):
            self.assertEqual(months.from_csv("\n".join(cells).encode()).rates, [-1_000] * 60 + [10_000] * 60)

    def test_shapes(self):
        self.bad(LINES[1:], "this has 119 months; it must have 120, a line a month")
        self.bad([*LINES, "2012-09;2.400 %"], "this has 121 months")
        self.bad(["month;rate"], "this has 0 months")
        self.bad([""], "this is a CSV file, which holds nothing")
        self.bad(['"'], "this is a CSV file, which cannot be read at line 1")
        self.bad(["5" * 4_000_001], "this is a CSV file, which is larger than 4,000,000 bytes")
        self.bad([";".join(LABELS), ";".join(PERCENT)], "this has 2 lines of 120 cells; it must have 120 lines, each with a month")
        self.bad(changed(line_8="2003-04"), "line 8 has 1 cell, where most lines have 2")
        self.bad(changed(line_8="2003-04;5.225 %;*"), "line 8 has 3 cells, where most lines have 2")

    def test_decimal_commas_between_commas(self):
        cells = [cell.replace(".", ",") for cell in PERCENT]
        advice = "if its commas are decimal marks, write semicolons between the cells"
        self.bad(lines_of(LABELS, cells, ","), advice)
        with self.assertRaises(Wrong) as caught:
            months.from_csv("\n".join(cells).encode())
        self.assertIn(advice, caught.exception.faults[0])

    def test_all_faults_at_once(self):
        """In the order of the lines, but for those of the whole sheet, which come first."""
        self.bad(changed(line_2="2002-10;5.375", line_3="?;11 %", line_5="2003-01", line_9="2003-06;5.2 %")[:119],
                 "this has 119 months", "line 2, cell 2,", "line 3, cell 1,", "line 3, cell 2,", "line 5 has 1 cell",
                 "line 9, cell 1,", "line 10, cell 1,")


class Bytes(unittest.TestCase):
    def test_every_start(self):
        for start in range(120):
            data = months.write(RATES, start)
            self.assertEqual((len(data), months.read(data, start)), (240, RATES))
            for month, rate in enumerate(RATES):
                place = (start + month) % 120
                self.assertEqual(int.from_bytes(data[2 * place:2 * place + 2], "big"), rate)

    def test_any_bytes(self):
        """Whatever 240 bytes are read is written as the same bytes, by way of CSV too."""
        rng = random.Random(5)
        for _ in range(200):
            start = rng.randrange(120)
            data = b"".join(rng.randint(-1_000, 10_000).to_bytes(2, "big", signed=True) for _ in range(120))
            rates = months.read(data, start)
            self.assertEqual(months.write(rates, start), data)
            self.assertEqual(months.from_csv(months.to_csv(rates).encode()), months.Months(rates, None))

    def test_csv_of_months(self):
        self.assertEqual(months.to_csv(RATES).splitlines()[:2] + months.to_csv(RATES).splitlines()[-1:],
                         ["month;forward rate", "1;5.4 %", "120;2.425 %"])

    def refused(self, data, start, *faults):
        with self.assertRaises(Wrong) as caught:
            months.read(data, start)
        self.assertEqual(caught.exception.faults, list(faults))

    def test_refusals(self):
        data = months.write(RATES, 7)
        for length in (0, 239, 241, 24_000):
            self.refused(bytes(length), 0, f"refused, 17: the history has {length:,} bytes; it must have 240")
        for start in (-1, 120, 2 ** 64):
            fault = f"refused, 17: the start index is {start}; it must be 0 to 119"
            self.refused(data, start, fault)
            self.refused(data[1:], start, fault, "refused, 17: the history has 239 bytes; it must have 240")
            with self.assertRaises(Wrong) as caught:
                months.write(RATES, start)
            self.assertEqual(caught.exception.faults, [fault])

    def test_months_out_of_limits(self):
        data = b"\xfc\x17" + months.write(RATES, 7)[2:238] + b"\x27\x11"
        self.refused(data, 7, "refused, 18, at byte 238: month 113 is 10,001 steps, 10.001 %; it must be -1,000 to 10,000 steps",
                     "refused, 18, at byte 0: month 114 is -1,001 steps, -1.001 %; it must be -1,000 to 10,000 steps")
        data = b"\xfc\x18" + data[2:238] + b"\x27\x10"
        self.assertEqual((months.read(data, 7)[113], months.read(data, 7)[112]), (-1_000, 10_000))


class Warnings(unittest.TestCase):
    """Those of the months alone, by the rules that tests/unit/test_plausible.py tries."""

    def warned(self, rates, *starts):
        warnings = month_warnings(months.Months(rates))
        self.assertEqual(len(warnings), len(starts), warnings)
        for warning, start in zip(warnings, starts):
            self.assertTrue(warning.startswith(start), warning)

    def test_plausible(self):
        self.warned(RATES)
        self.warned([4_200 + min(month, 19) for month in range(120)])

    def test_all_equal(self):
        self.warned([4_200] * 120, "the number of different months is 1, below 20; was one rate copied to all, or were decimals cut off?")
        self.warned([rate - rate % 1_000 for rate in RATES], "the number of different months is 4, below 20; ")

    def test_moves(self):
        """A move of 2 % is not warned of, one step more is, up or down; the largest is named."""
        move, far = "the largest move from a month to the next is ", "the month that is farthest from the nearer of its neighbours is "
        for sign, shown in ((1, "6.201 %"), (-1, "2.199 %")):
            low, high = sorted((4_200, 4_200 + 2_000 * sign))
            before, after = (low, high) if sign > 0 else (high, low)
            rising = [-sign * (20 - month) if month < 20 else 0 for month in range(60)]  # to have different months
            self.warned([before + more for more in rising] + [after] * 60)
            self.warned([before + more for more in rising] + [after + sign] * 60,
                        f"{move}2.001 % (month 61 is {shown}, the month before it 4.2 %), above 2 %; ")
        level = [4_200 + min(month, 19) for month in range(30)]
        self.warned(level + [420] + [4_200] * 59 + [9_000] + [4_200] * 29,
                    f"{move}4.8 % (month 91 is 9 %, the month before it 4.2 %)", f"{far}4.8 % away (month 91 is 9 %)")

    def test_another_unit(self):
        """Fractions typed as percentages: 0.054 % for 5.4 %."""
        self.warned([rate // 100 for rate in RATES], "the UFR found from the months is 0 %, below 1 %; were the months typed in another")


if __name__ == "__main__":
    unittest.main()
