"""Changed and random texts, sheets and files give a case or months, or an error with its sentences, and nothing else."""

import random
import re
import sys
import tempfile
import unittest
from collections import Counter
from dataclasses import replace
from itertools import product
from pathlib import Path

from tests import ROOT

sys.path[:0] = [str(ROOT / "tools")]
from casetext import Fault, Wrong, explain, from_toml, month_warnings, months, read, template, to_toml, warnings_of, write

UP = read((ROOT / "cases" / "up.case").read_bytes())
FOUR = replace(UP, rate_bytes=4, days=[[100 * rate + 37 * term % 100 for term, rate in enumerate(day)] for day in UP.days],
               equity_correlation=250)
DAYS = (ROOT / "cases" / "fund-days.csv").read_text("utf-8")
FUND = (ROOT / "cases" / "fund.toml").read_text("utf-8")
FUND_FOUR = FUND.replace('unit = "%"', 'rate_bytes = 4\nunit = "%"')
MONTHS = (ROOT / "cases" / "fund-months.csv").read_text("utf-8")
FLOWS = ["term;flow\n1;31.415.927\n2;27182818\n3;€ 16.180.339,00\n", "1;2;3\n31.415.927;27182818;€ 16.180.339,00\n",
         "jaar,1,2\nflow,31415927,27182818\n"]
PIECES = ["", "0", "1", "-1", "25", "4.2", "1.000", "1,000", "1.000.000", "nan", "inf", "1e999999999", "0x" + "f" * 50, "9" * 60,
          "true", "[]", "{}", "[[", '"', "'", '"""', "\\", "\\u0000", "#", "=", ",", ";", "\t", "\n", "\r", "\x00", "\x1b", "\ufeff",
          "é", "€", "%", " %", '"25 %"', '"25"', '"1 step"', '"66 years 3 months"', '"5 euros"', "2025-01-02", "[days]",
          "[flows]", "rate_bytes = 4\n", "rate_bytes = 2\n", 'equity_correlation = "50 %"\n', "0.22613", "22.613",
          "unit", "csv", "header = true\n", "labels = true\n", 'lines = "terms"\n', 'unit = "bp"\n', "1;2;3\n",
          ";".join(map(str, range(1, 61))) + "\n", "term", "\u2212", "\u0663", "½", "\u2028"]


def changed(rng, text):
    """The text with up to four small changes."""
    for _ in range(rng.randint(1, 4)):
        at, end = sorted(rng.randrange(len(text) + 1) for _ in range(2))
        kind = rng.randrange(5)
        if kind == 0:
            text = text[:at] + rng.choice(PIECES) + text[at:]
        elif kind == 1:
            text = text[:at] + rng.choice(PIECES) + text[min(end, at + rng.randint(1, 12)):]
        elif kind == 2:
            lines = text.split("\n")
            place = rng.randrange(len(lines))
            lines[place:place + 1] = rng.choice([[], [lines[place]] * 2, [rng.choice(lines)]])
            text = "\n".join(lines)
        elif kind == 3:
            mark = rng.choice(".,;\"%= 0123456789")
            text = text.replace(mark, rng.choice(PIECES), rng.randint(1, 3))
        else:
            text = text[:at] + chr(rng.randrange(0x250)) + text[at + 1:]
    return text


class Fuzz(unittest.TestCase):
    def judge(self, text, folder=Path()):
        """What becomes of a text: a case that is written and comes back, or faults of one line each."""
        try:
            case = from_toml(text, folder)
        except Wrong as wrong:
            return self.judge_faults(wrong.faults)
        self.assertEqual(from_toml(to_toml(case)), case)
        self.assertEqual(read(write(case)), case)
        self.assertTrue(all(warning.isprintable() for warning in warnings_of(case)))
        return "case" if case.rate_bytes == 2 else "case of four bytes"

    def judge_faults(self, faults):
        self.assertTrue(faults)
        for fault in faults:
            self.assertTrue(fault.isprintable() and len(fault) < 2_000, fault)
        return "wrong"

    def judge_months(self, data):
        try:
            rates = months.from_csv(data).rates
        except Wrong as wrong:
            return self.judge_faults(wrong.faults)
        self.assertEqual(months.read(months.write(rates, 37), 37), rates)
        self.assertEqual(months.from_csv(months.to_csv(rates).encode()), months.Months(rates, None))
        self.assertTrue(all(warning.isprintable() for warning in month_warnings(months.Months(rates))))
        return "months"

    def test_texts(self):
        rng, seen = random.Random(31), Counter()
        with tempfile.TemporaryDirectory() as name:
            folder = Path(name)
            (folder / "fund-days.csv").write_text(DAYS, "utf-8")
            texts = [FUND, FUND_FOUR, to_toml(UP), to_toml(FOUR), template()]
            for _ in range(3_500):
                seen[self.judge(changed(rng, rng.choice(texts)), folder)] += 1
        self.assertGreater(seen["wrong"], 1_000)
        self.assertGreater(min(seen["case"], seen["case of four bytes"]), 100)

    def test_sheets(self):
        rng, seen = random.Random(32), Counter()
        text, lists = re.subn(r"pension = \[[^]]*\]", 'pension_csv = "flows.csv"', FUND)
        self.assertEqual(lists, 1)
        english = DAYS.replace(",", ".").replace(";", ",")
        turned = "\n".join(";".join(row) for row in zip(*(line.split(";") for line in DAYS.splitlines()))) + "\n"
        with tempfile.TemporaryDirectory() as name:
            folder = Path(name)
            for _ in range(1_500):
                encoding, touched = rng.choice(["utf-8", "utf-8", "utf-8-sig", "utf-16"]), False
                for file, sheets in (("fund-days.csv", [DAYS, english, turned]), ("flows.csv", FLOWS)):
                    sheet = rng.choice(sheets)
                    new = changed(rng, sheet) if rng.random() < 0.6 else sheet
                    touched |= new != sheet
                    (folder / file).write_bytes(new.encode(encoding, "replace"))
                unit = rng.choice(['unit = "%"', 'unit = "%"', 'unit = "%"', 'unit = "bp"', ""])
                seen[self.judge(text.replace('unit = "%"', unit), folder), touched, "%" in unit] += 1
        self.assertEqual(seen["wrong", False, True], 0)
        self.assertGreater(seen["case", False, True], 100)
        self.assertGreater(seen["case", True, True], 10)
        self.assertGreater(seen["wrong", True, True], 500)
        self.assertEqual(seen["case", False, False], 0)

    def test_months(self):
        rng, seen = random.Random(34), Counter()
        english = MONTHS.replace(",", ".").replace(";", ",")
        sheets, encodings = [MONTHS, english, re.sub(".*,", "", english)], ["utf-8", "utf-8-sig", "utf-16"]
        for sheet, encoding in product(sheets, encodings):
            self.assertEqual(self.judge_months(sheet.encode(encoding)), "months")
        for _ in range(1_000):
            seen[self.judge_months(changed(rng, rng.choice(sheets)).encode(rng.choice(encodings), "replace"))] += 1
        self.assertGreater(seen["wrong"], 500)
        self.assertGreater(seen["months"], 10)

    def test_garbage(self):
        rng = random.Random(33)
        with tempfile.TemporaryDirectory() as name:
            folder = Path(name)
            for _ in range(1_500):
                data = rng.randbytes(rng.choice([1, 3, 20, 300]))
                (folder / "fund-days.csv").write_bytes(data)
                self.judge(FUND, folder)
                self.judge(data.decode("latin-1"))
                self.assertEqual(self.judge_months(data), "wrong")
                self.judge("".join(rng.choice(PIECES) for _ in range(rng.randint(1, 30))), folder)
                self.assertFalse(explain(data)[1])
                with self.assertRaises(Fault):
                    read(data)

    def test_deep_and_long(self):
        for text in ("a = " + "[" * 100_000, "a = " + "{b = " * 50_000, "a." * 130_000 + "b = 1", "a = {" + "1." * 130_000 + "b = 1}",
                     "[" + '"a".' * 301 + "b]", "[" * 100_000,
                     "a = " + "[" * 90 + "]" * 90, "ufr = " + "[" * 300 + "]" * 300, "ufr = 0b" + "1" * 100_000,
                     "ufr = 1." + "0" * 100_000, 'ufr = "' + "9" * 100_000 + ' %"', "\x00" * 1_000, "ufr = 1e" + "9" * 5_000,
                     "x = 1\n" * 2, "\n".join(f"k{i} = 1" for i in range(1_000))):
            self.assertEqual(self.judge(text), "wrong")


if __name__ == "__main__":
    unittest.main()
