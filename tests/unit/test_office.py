"""Slips that an office makes, each put to ./value as a file: none of them passes without a word.

Every slip here is accepted or nearly so, and most would change the verdict. The numbers are those of the example fund.
"""

import csv
import hashlib
import io
import json
import re
import shutil
import sys
import unittest
from dataclasses import replace

from tests import ROOT
from tests.unit.checkouts import Checkout

sys.path[:0] = [str(ROOT / "tools"), str(ROOT / "hosts" / "python")]
import casetext
import ginghamowl
from casetext.plausible import in_package

FUND = casetext.read((ROOT / "cases" / "fund.case").read_bytes())
DATES = [f"{day:02}-09-2012" for day in range(1, 21)]


def percent(steps, decimals=3):
    """A rate as a Dutch spreadsheet shows it."""
    return f"{steps / 1_000:.{decimals}f}".replace(".", ",")


def sheet_of(rows, labels=DATES):
    """A sheet of days: the terms above, a date before each day."""
    header = ";".join(["datum", *map(str, range(1, 61))])
    return "\n".join([header, *(";".join([label, *row]) for label, row in zip(labels, rows))]) + "\n"


class Office(Checkout):
    """A folder with the fund's text and sheets, in which one thing is changed."""

    def setUp(self):
        super().setUp()
        for name in ("fund.toml", "fund-days.csv", "fund-months.csv", "fund.case"):
            shutil.copy(ROOT / "cases" / name, self.folder)
        self.text, self.sheet = self.folder / "fund.toml", self.folder / "fund-days.csv"
        self.history = self.folder / "fund-months.csv"
        self.listing = (ROOT / "cases/fund.txt").read_text()
        self.value(self.c1)

    def edit(self, old, new):
        text = self.text.read_text()
        self.assertEqual(text.count(old), 1, old)
        self.text.write_text(text.replace(old, new))

    def pension(self, flows):
        self.flows("pension", flows)

    def flows(self, name, flows):
        text, found = re.subn(rf"{name} = \[.*?\n\]", f"{name} = {flows}", self.text.read_text(), flags=re.DOTALL)
        self.assertEqual(found, 1)
        self.text.write_text(text)

    def days(self, rows, labels=DATES):
        self.sheet.write_text(sheet_of(rows, labels))

    def run_text(self, *words):
        return self.value(*words, "fund.toml", cwd=self.folder, text=True)

    def assertWarned(self, words, said, name="fund.toml"):
        """The call is answered, with these words in a warning, and is told by --strict, JSON and CSV too."""
        run = self.value(*words, cwd=self.folder, text=True)
        self.assertEqual(run.returncode, 0, run.stderr)
        found = [line for line in run.stderr.splitlines() if line.startswith(f"{name}: warning: ") and said in line]
        self.assertEqual(len(found), 1, run.stderr)
        self.assertEqual(self.value("--strict", *words, cwd=self.folder).returncode, 3)
        warning = found[0].removeprefix(f"{name}: warning: ")
        told = json.loads(self.value("--json", *words, cwd=self.folder).stdout)
        self.assertIn(warning, told["valuations"][0]["warnings"] + told.get("months_warnings", []))
        row, = csv.DictReader(io.StringIO(self.value("--csv", *words, cwd=self.folder, text=True).stdout))
        self.assertIn(warning, (row["warnings"] + " | " + row.get("months_warnings", "")).split(" | "))
        return run

    def assertSilent(self, *words):
        run = self.value("--strict", *words, cwd=self.folder, text=True)
        self.assertEqual((run.returncode, run.stderr), (0, ""))
        return run

    def test_the_fund_itself(self):
        self.assertEqual(self.assertSilent("fund.toml").stdout, self.listing)
        self.assertEqual(self.assertSilent("fund.case").stdout, self.listing)
        self.assertSilent("--months", "fund-months.csv", "fund.toml")

    # ------------------------------------------------------------ lists

    def test_a_list_cut_short(self):
        self.pension(FUND.pension[:40])
        self.assertIn("V VRIJ VERMOGEN", self.assertWarned(["fund.toml"], "was the list cut short?").stdout)

    def test_a_list_cut_short_and_padded(self):
        self.pension([*FUND.pension[:40], 0, 0])
        self.assertWarned(["fund.toml"], "was the list cut short?")

    def test_a_list_that_begins_late(self):
        """A row for the year that has just ended, or a cell of the first year that is empty: each flow is a year late, or two."""
        self.pension([0, *FUND.pension])
        run = self.assertWarned(["fund.toml"], "(term 2), above 25 % of the largest; does the list begin a year late, or more?")
        self.assertLess(int(run.stdout.split()[1]), int(self.listing.split()[1]))
        self.pension([0, 0, *FUND.pension])
        self.assertWarned(["fund.toml"], "(term 3), above 25 % of the largest; does the list begin a year late, or more?")

    def test_bonds_that_begin_late(self):
        self.flows("bonds", [0, *FUND.bonds])
        self.assertWarned(["fund.toml"], "(term 2), above 5 % of the largest; does the list begin a year late, or more?")

    def test_years_left_out(self):
        self.pension([*FUND.pension[:30], *FUND.pension[50:]])
        self.assertWarned(["fund.toml"], "(terms 30 and 31), above 2 times the other; are flows missing between them, or digits?")

    def test_a_total_behind_a_list(self):
        self.pension([*FUND.pension, 95_000_000])
        self.assertWarned(["fund.toml"], "was a total put behind the flows?")

    def test_a_list_pasted_twice(self):
        self.pension(FUND.pension[:60] * 2)
        self.assertWarned(["fund.toml"], "flows.pension is 60 flows (from 1 on, and again from 61 on), above 3 flows")

    # ------------------------------------------------------------ months

    def test_months_as_fractions(self):
        """5.412 % typed as 0.054 %: the UFR found is 0."""
        rates = casetext.months.from_csv(self.history.read_bytes()).rates
        lines = self.history.read_text().splitlines()
        self.history.write_text("\n".join([lines[0], *(f"{line.partition(';')[0]};{percent(rate // 100)} %"
                                                       for line, rate in zip(lines[1:], rates, strict=True))]))
        words = ["--months", "fund-months.csv", "fund.toml"]
        run = self.assertWarned(words, "the UFR found from the months is 0 %, below 1 %", "fund-months.csv")
        self.assertIn("V DEKKINGSTEKORT", run.stdout)
        row = json.loads(self.value("--json", *words, cwd=self.folder).stdout)["valuations"][0]
        self.assertEqual((row["ufr"], row["ufr_from"]), (0, "history"))

    def test_a_stale_history(self):
        """The days are of September 2012; the newest month is ten years older, or the history has no dates."""
        text = self.history.read_text()
        self.history.write_text(re.sub(r"^(\d{4})", lambda found: str(int(found[1]) - 10), text, flags=re.MULTILINE))
        self.assertWarned(["--months", "fund-months.csv", "fund.toml"], "to the last date of days is 121 months, above 3 months")
        self.assertSilent("--months", "fund-months.csv", "fund.case")  # a case file has no dates

    def test_a_column_of_months_with_one_unit(self):
        """"rente (%)" above the column, in place of a unit in each cell, or the option."""
        right = self.assertSilent("--months", "fund-months.csv", "fund.toml").stdout
        bare = self.history.read_text().replace(" %", "")
        self.history.write_text(bare.replace("forward rente", "forward rente (%)"))
        self.assertEqual(self.assertSilent("--months", "fund-months.csv", "fund.toml").stdout, right)
        self.history.write_text(bare)
        self.assertEqual(self.assertSilent("--months", "fund-months.csv", "--months-unit", "%", "fund.toml").stdout, right)
        self.assertNoAnswer(self.value("--months", "fund-months.csv", "fund.toml", cwd=self.folder), "without a unit")
        fractions = re.sub(r";(\d),(\d{3})", r";0,0\1\2", bare)
        self.history.write_text(fractions.replace("forward rente", "rente (fraction)"))
        self.assertEqual(self.assertSilent("--months", "fund-months.csv", "fund.toml").stdout, right)

    # ------------------------------------------------------------ rates

    def test_decimals_cut_off(self):
        """Cells of two decimals, exported as shown."""
        self.days([[percent(rate, 2) for rate in day] for day in FUND.days])
        self.assertWarned(["fund.toml"], "with a fifth decimal (0.001 %) is 0 % of all on day 1, below 50 % of all; did a")

    def test_decimals_cut_off_on_one_day(self):
        self.days([[percent(rate, 2 if place == 12 else 3) for rate in day] for place, day in enumerate(FUND.days)])
        self.assertWarned(["fund.toml"], "with a fifth decimal (0.001 %) is 0 % of all on day 13, below 50 % of all")

    def test_a_day_of_zeros(self):
        self.days([["0,000"] * 60 if place == 3 else map(percent, day) for place, day in enumerate(FUND.days)])
        run = self.assertWarned(["fund.toml"], "with one rate at all terms is 1 (day 4), above 0")
        self.assertIn("farthest from the median of its term is", run.stderr)

    def test_one_rate(self):
        """0,233 for 2,33."""
        days = [list(map(percent, day)) for day in FUND.days]
        days[6][29] = "0,233"
        self.days(days)
        self.assertWarned(["fund.toml"], "(term 30 of day 7 is 0.233 %), above 1 % away")

    def test_the_same_day_twice(self):
        days = [list(map(percent, day)) for day in FUND.days]
        self.days([*days[:9], days[8], *days[10:]])
        self.assertWarned(["fund.toml"], "the number of days that repeat another is 1 (day 10 repeats day 9), above 0")

    def test_a_sheet_of_fractions(self):
        """The error asks about fractions first, and unit = "fraction" gives the fund's own listing."""
        self.days([[f"{rate / 100_000:.5f}".rstrip("0") for rate in day] for day in FUND.days])
        run = self.run_text()
        self.assertEqual(run.returncode, 2)
        asked, advised = run.stderr.find('unit = "fraction"'), run.stderr.find("rate_bytes = 4")
        self.assertTrue(0 < asked < advised, run.stderr)
        self.edit('unit = "%"', 'unit = "fraction"')
        self.assertEqual(self.assertSilent("fund.toml").stdout, self.listing)

    def test_a_form_changed_alone(self):
        """In Python, replace(case, days_form=FOUR_BYTES) would divide every rate by 100."""
        case = in_package(FUND)
        with self.assertRaisesRegex(ValueError, "in_form"):
            replace(case, days_form=ginghamowl.DaysForm.FOUR_BYTES)
        fine = case.in_form(ginghamowl.DaysForm.FOUR_BYTES)
        self.assertEqual(fine.days, tuple(tuple(100 * rate for rate in day) for day in FUND.days))

    # ------------------------------------------------------------ what is lost

    def test_a_case_file_is_looked_at(self):
        """The file warns as its text does, also from standard input."""
        self.edit('mature_fall = "25 %"', 'mature_fall = "25 thousandths"')
        data = casetext.write(casetext.from_toml(self.text.read_text(), self.folder))
        (self.folder / "slip.case").write_bytes(data)
        of_text, of_file = (json.loads(self.value("--json", name, cwd=self.folder).stdout)["valuations"][0]["warnings"]
                            for name in ("fund.toml", "slip.case"))
        self.assertEqual((len(of_text), of_file), (1, of_text))
        self.assertWarned(["slip.case"], "shocks.mature_fall is 2.5 %", "slip.case")
        run = self.value("-", input=data)
        self.assertIn(b"-: warning: shocks.mature_fall is 2.5 %", run.stderr)

    def test_a_refusal_in_csv(self):
        (self.folder / "bad.case").write_bytes(b"")
        row, = csv.DictReader(io.StringIO(self.value("--csv", self.folder / "bad.case", text=True).stdout))
        self.assertEqual((row["refusal"], row["refusal_sentence"][:23]), ("1", "the file is too short; "))

    def test_sheets_are_told(self):
        """Another sheet under the same name has another digest, although the text is the same."""
        def told():
            row = json.loads(self.run_text("--json").stdout)["valuations"][0]
            self.assertEqual(row["sheets"], {"fund-days.csv": hashlib.sha256(self.sheet.read_bytes()).hexdigest()})
            line, = csv.DictReader(io.StringIO(self.run_text("--csv").stdout))
            self.assertEqual(line["sheets"], f"fund-days.csv {row['sheets']['fund-days.csv']}")
            return row
        before = told()
        self.days([map(percent, day) for day in FUND.days[::-1]])
        after = told()
        self.assertEqual(before["sha256"], after["sha256"])
        self.assertNotEqual(before["sheets"], after["sheets"])

    def test_what_was_valued(self):
        """UFR and where it came from, days and their dates, form, sums."""
        row = json.loads(self.run_text("--json").stdout)["valuations"][0]
        amounts = sum(FUND.amounts.values()) - FUND.amounts["currency"]
        expected = {"ufr": 4_200, "ufr_from": "file", "rate_bytes": 2, "days": 20, "first_day": "2012-09-03", "last_day": "2012-09-28",
                    "pension_flows": 80, "pension_sum": sum(FUND.pension), "bond_flows": 25, "bond_sum": sum(FUND.bonds),
                    "assets_sum": amounts, "equity_correlation": 1_000}
        self.assertEqual({key: row[key] for key in expected}, expected)
        line, = csv.DictReader(io.StringIO(self.run_text("--csv").stdout))
        self.assertEqual({key: line[key] for key in expected}, {key: str(value) for key, value in expected.items()})
        self.edit('ufr = "4.2 %"', "")
        row = json.loads(self.run_text("--json").stdout)["valuations"][0]
        self.assertEqual((row["ufr"], row["ufr_from"]), (4_200, "default"))
        row = json.loads(self.value("--json", "fund.case", cwd=self.folder).stdout)["valuations"][0]
        self.assertEqual((row["days"], row["first_day"], row["last_day"]), (20, None, None))
        (self.folder / "bad.case").write_bytes(b"")
        row = json.loads(self.value("--json", "bad.case", cwd=self.folder).stdout)["valuations"][0]
        self.assertEqual({row[key] for key in expected}, {None})

    def test_relief(self):
        """S2 with the relief for spread over the classes, as worked by hand; beside it S2 without, which a file without the field has."""
        before = json.loads(self.run_text("--json").stdout)["valuations"][0]
        self.edit('duration = "5.3 years"', 'duration = "5.3 years"\nequity_correlation = "50 %"')
        row = json.loads(self.assertSilent("--json", "fund.toml").stdout)["valuations"][0]
        self.assertEqual((before["equity_correlation"], before["S2_without_relief"]), (1_000, None))
        self.assertEqual((row["equity_correlation"], row["S2_without_relief"]), (500, before["figures"]["S2"]))
        self.assertEqual(row["figures"]["S2"], [2_138_200_470, 2_138_200_471])
        self.assertLess(row["figures"]["S"][1], before["figures"]["S"][0])
        self.assertEqual({name: row["figures"][name] for name in "L B A S1 S3 S4 S5 S6".split()},
                         {name: before["figures"][name] for name in "L B A S1 S3 S4 S5 S6".split()})
        line, = csv.DictReader(io.StringIO(self.run_text("--csv").stdout))
        self.assertEqual((line["equity_correlation"], line["S2_without_relief_lower"]), ("500", str(before["figures"]["S2"][0])))

    def test_a_relief_that_is_a_slip(self):
        """50 for 50 %, typed in thousandths."""
        self.edit('duration = "5.3 years"', 'duration = "5.3 years"\nequity_correlation = "50 thousandths"')
        self.assertWarned(["fund.toml"], "shocks.equity_correlation is 5 %, below 25 %; was a percentage typed in thousandths")

    def test_no_relief_that_is_typed(self):
        """100 % gives the listing of a text without the key."""
        self.edit('duration = "5.3 years"', 'duration = "5.3 years"\nequity_correlation = "100 %"')
        self.assertEqual(self.assertSilent("fund.toml").stdout, self.listing)

    # ------------------------------------------------------------ confusion

    def test_files_of_another_kind(self):
        """R 3, and a hint."""
        (self.folder / "book.case").write_bytes(b"PK\x03\x04" + bytes(400))
        shutil.copy(self.text, self.folder / "mine.toml.txt")
        for name, said in (("mine.toml.txt", ".toml"), ("fund-days.csv", "CSV"), ("book.case", "workbook")):
            run = self.value(name, cwd=self.folder, text=True)
            self.assertEqual((run.returncode, run.stdout), (1, "R 3\n"))
            self.assertTrue(run.stderr.startswith(f"{name}: ") and said in run.stderr, run.stderr)
        (self.folder / "bad.case").write_bytes(b"\0\0" + bytes(400))
        self.assertEqual(self.value("bad.case", cwd=self.folder, text=True).stderr, "")

    def test_a_text_that_is_refused(self):
        """A forward rate out of limits: R 6, exit status 1, and the term in words."""
        self.days([["0,000", *["6,001"] * 59]], ["03-09-2012"])
        run = self.run_text()
        self.assertEqual((run.returncode, run.stdout), (1, "R 6\n"))
        self.assertIn("fund.toml: days: refused, 6: the one-year forward rate from year 1 to year 2 is 12.00", run.stderr)
        row = json.loads(self.run_text("--json").stdout)["valuations"][0]
        self.assertEqual((row["refusal"], row["problem"], row["warnings"]), (6, None, []))
        self.assertEqual(row["sheets"], {"fund-days.csv": hashlib.sha256(self.sheet.read_bytes()).hexdigest()})

    def test_dates(self):
        """A date that is none names its cell."""
        rows = [list(map(percent, day)) for day in FUND.days]
        for label, place in (("09/13/2012", 5), ("41155", 0), ("03-09-2112", 0), ("31-02-2012", 7), ("2012-09-03 00:00:00", 0),
                             ("ma 03-09-2012", 2)):
            self.days(rows, [label if at == place else date for at, date in enumerate(DATES)])
            run = self.run_text()
            self.assertEqual((run.returncode, run.stdout), (2, ""), label)
            self.assertIn(f"line {place + 2}, cell 1 of fund-days.csv, ", run.stderr)
            self.assertIn(label, run.stderr)

    def test_thousands_in_one_column(self):
        """8.651.000 and 958.258 in one column, as spreadsheets write them."""
        flows = "\n".join(["term;flow", *(f"{term};{flow:,}".replace(",", ".") for term, flow in enumerate(FUND.pension, 1))])
        (self.folder / "pension.csv").write_text(flows)
        text = re.sub(r"pension = \[.*?\n\]", 'pension_csv = "pension.csv"', self.text.read_text(), flags=re.DOTALL)
        self.text.write_text(text)
        self.assertEqual(self.assertSilent("fund.toml").stdout, self.listing)

    def test_dutch_units(self):
        self.edit('mature_fall = "25 %"', 'mature_fall = "25 procent"')
        self.edit('up_shift = "0.71 %"', 'up_shift = "71 basispunten"')
        self.edit('pension_age = "66 years"', 'pension_age = "66 jaar"')
        self.assertEqual(self.assertSilent("fund.toml").stdout, self.listing)


class BeforeTheProof(Checkout):
    def test_texts_are_read(self):
        """A typing error costs no proof; beside a good case it is told before the proof."""
        for name in ("fund.toml", "fund-days.csv", "fund.case"):
            shutil.copy(ROOT / "cases" / name, self.folder)
        text = self.folder / "fund.toml"
        text.write_text(text.read_text().replace("heads = 4180", "head = 4180"))
        run = self.value("fund.toml", cwd=self.folder, text=True)
        self.assertEqual((run.returncode, self.calls()), (2, 0))
        self.assertIn("people.head is no key of a case", run.stderr)
        run = self.value("fund.toml", "fund.case", cwd=self.folder, text=True)
        self.assertEqual((run.returncode, self.calls()), (2, 1))
        self.assertLess(run.stderr.index("people.head is no key"), run.stderr.index("value: proving and building"))


class Strict(Checkout):
    def test_statuses(self):
        """No answer counts before a refusal, and a refusal before a warning."""
        (self.folder / "bad.case").write_bytes(b"")
        shutil.copy(ROOT / "cases" / "fund.case", self.folder)
        for names, status in ((["fund.case"], 0), (["c1.case"], 3), (["fund.case", "c1.case"], 3), (["c1.case", "bad.case"], 1),
                              (["c1.case", "bad.case", "none"], 2), (["bad.case"], 1)):
            self.assertEqual(self.value("--strict", *names, cwd=self.folder).returncode, status, names)
            self.assertEqual(self.value(*names, cwd=self.folder).returncode, status % 3, names)

    def test_a_warned_case_is_still_listed(self):
        self.assertEqual(self.value("--strict", self.c1).stdout, self.value(self.c1).stdout)


if __name__ == "__main__":
    unittest.main()
