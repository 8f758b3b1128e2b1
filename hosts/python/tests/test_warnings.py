"""warnings_of: a case and the history that gives its UFR; the rules themselves are tried in tests/unit/test_plausible.py."""

import subprocess
import sys
import unittest
from dataclasses import replace
from datetime import date
from pathlib import Path

HERE = Path(__file__).resolve().parent
ROOT = HERE.parents[2]
sys.path[:0] = [str(HERE.parent)]
from ginghamowl import Case, DaysForm, History, Refused, warnings_of

FUND = Case.read((ROOT / "cases" / "fund.case").read_bytes())
HISTORY = History.from_bytes((ROOT / "cases" / "fund.months").read_bytes(), 37)


class Warnings(unittest.TestCase):
    def test_a_usual_fund(self):
        self.assertEqual(warnings_of(FUND), [])
        self.assertEqual(warnings_of(FUND, HISTORY), [])
        self.assertEqual(warnings_of(FUND.in_form(DaysForm.FOUR_BYTES)), [
            "the share of rates in days with a seventh decimal (0.00001 %) is 0 % of all on day 1, below 50 % of all; "
            "did a spreadsheet cut off the decimals?"])

    def test_a_slip(self):
        cut, = warnings_of(replace(FUND, pension=FUND.pension[:45]))
        self.assertEqual(cut[-24:], " was the list cut short?")

    def test_history(self):
        """The UFR found is judged, and the one of the case is not."""
        low = History([month // 100 for month in HISTORY.months()])
        self.assertEqual(warnings_of(replace(FUND, ufr=0), HISTORY), [])
        self.assertEqual([warning[:36] for warning in warnings_of(FUND, low)], ["the UFR found from the months is 0 %"])

    def test_dates(self):
        days = [date(2012, 9, 3), date(2012, 9, 28)]
        self.assertEqual(warnings_of(FUND, HISTORY, dates=days, newest_month=date(2012, 8, 31)), [])
        stale, = warnings_of(FUND, HISTORY, dates=days, newest_month=date(2002, 8, 31))
        self.assertIn("is 121 months, above 3 months; is the history of another date than the days?", stale)

    def test_what_is_refused(self):
        """Only what is accepted is judged: numbers out of limits have their refusal."""
        for case, number in ((replace(FUND, people=replace(FUND.people, heads=0)), 12), (replace(FUND, days=[]), 4),
                             (replace(FUND, pension=[]), 7)):
            with self.assertRaises(Refused) as refused:
                warnings_of(case)
            self.assertEqual(refused.exception.number, number)
        with self.assertRaises(Refused) as refused:
            warnings_of(FUND, History([]))
        self.assertEqual(refused.exception.number, 17)

    def test_what_is_no_case(self):
        with self.assertRaisesRegex(TypeError, "is a Case, not bytes; Case.read"):
            warnings_of((ROOT / "cases" / "fund.case").read_bytes())

    def test_command_line(self):
        """On standard error, and the answer is what it was."""
        for name, status, count in (("fund", 0, 0), ("seven", 0, 1), ("refused_09", 1, 0)):
            run = subprocess.run([sys.executable, "-m", "ginghamowl", "--listing", ROOT / "cases" / f"{name}.case"],
                                 cwd=HERE.parent, capture_output=True, text=True)
            self.assertEqual((run.returncode, run.stdout), (status, (ROOT / "cases" / f"{name}.txt").read_text()))
            self.assertEqual(run.stderr.count("warning: "), count, run.stderr)


if __name__ == "__main__":
    unittest.main()
