"""S2 with the relief for spread and without it: worked by hand, and told in JSON and CSV. Nothing needs to be built."""

import csv
import io
import json
import random
import re
import sys
import unittest
from dataclasses import replace
from fractions import Fraction
from itertools import combinations

from tests import ROOT
from tests.reference import reference

sys.path[:0] = [str(ROOT / "tools")]
import casetext
from casereport import writing
from casereport.answer import FIGURES, Answer, Report
from casetext.explaining import in_euros
from casetext.plausible import in_package
from casetext.relief import joined, relieved
from ginghamowl._measures import equity_losses

FUND = casetext.read((ROOT / "cases" / "fund.case").read_bytes())
SUM, HALF = [2_564_000_000] * 2, [2_138_200_470, 2_138_200_471]  # in cents; the second is 21,382,004.7002.. euros


def at(correlation, **fields):
    return replace(FUND, equity_correlation=correlation, **fields)


class Joined(unittest.TestCase):
    def test_by_hand(self):
        """Losses in tenths of a cent, S2 in cents."""
        three_and_four = [300_000, 400_000, 0, 0]  # 300 and 400 euros
        one_to_four = [1_000, 2_000, 3_000, 4_000]  # squares 30, and the six products 2, 3, 4, 6, 8 and 12: 35, in euros
        for losses, correlation, ends in (
                (three_and_four, 0, (50_000, 50_000)),
                (three_and_four, 500, (60_827, 60_828)),  # √370,000 = 608.276..
                (three_and_four, 1_000, (70_000, 70_000)),
                (one_to_four, 0, (547, 548)),  # √30 = 5.477..
                (one_to_four, 300, (714, 715)),  # √(30 + 2 × 0.3 × 35) = √51 = 7.141..
                (one_to_four, 999, (999, 1_000)),  # √99.93 = 9.996..
                (one_to_four, 1_000, (1_000, 1_000)),
                ([0, 0, 0, 7_000], 0, (700, 700)), ([0, 0, 0, 7_000], 1_000, (700, 700)), ([0] * 4, 0, (0, 0))):
            self.assertEqual(joined(losses, correlation), ends, (losses, correlation))
            self.assertEqual(joined(losses[::-1], correlation), ends, (losses, correlation))

    def test_rounded_once(self):
        """Tenths of a cent are joined before anything is rounded."""
        for losses, correlation, ends in (([3, 0, 0, 0], 500, (0, 1)), ([5, 5, 0, 0], 1_000, (1, 1)), ([6, 6, 0, 0], 1_000, (1, 2)),
                                          ([5, 5, 5, 5], 0, (1, 1)), ([5, 5, 5, 5], 1, (1, 2)), ([9, 9, 9, 9], 1_000, (3, 4)),
                                          ([6, 8, 0, 0], 0, (1, 1)), ([6, 8, 0, 1], 0, (1, 2))):
            self.assertEqual(joined(losses, correlation), ends, (losses, correlation))

    def test_between_its_ends(self):
        """The root lies between the two ends, which are a cent apart, or are one where it is a whole number of cents."""
        rng = random.Random(41)
        for _ in range(2_000):
            losses = [rng.choice([0, rng.randint(0, 20), rng.randint(0, 10 ** rng.randint(1, 14))]) for _ in range(4)]
            correlation = rng.choice([0, 1, 500, 999, 1_000, rng.randint(0, 1_000)])
            pairs = sum(one * other for one, other in combinations(losses, 2))
            square = Fraction(sum(loss ** 2 for loss in losses) + Fraction(2 * correlation, 1_000) * pairs, 100)
            lower, upper = joined(losses, correlation)
            self.assertLessEqual(lower ** 2, square)
            self.assertGreaterEqual(upper ** 2, square)
            self.assertEqual(upper - lower, lower ** 2 != square)

    def test_largest(self):
        """100 billion euros in each class, all of it lost."""
        losses = [10 ** 14] * 4
        self.assertEqual([joined(losses, correlation) for correlation in (0, 1_000)], [(2 * 10 ** 13,) * 2, (4 * 10 ** 13,) * 2])
        lower, upper = joined(losses, 999)
        self.assertEqual((upper - lower, lower ** 2 < 10 ** 26 * 15_988 // 1_000 < upper ** 2), (1, True))


class Relieved(unittest.TestCase):
    def test_only_below_100_percent(self):
        for case in (at(None), at(1_000)):
            self.assertIsNone(relieved(case))
        self.assertEqual(relieved(at(500)), (tuple(SUM), tuple(HALF)))
        self.assertEqual(relieved(at(0))[1], (1_603_030_411, 1_603_030_412))  # 16,030,304.1143.. euros
        self.assertEqual(relieved(at(500, amounts=None)), ((0, 0), (0, 0)))

    def test_each_class_has_its_fall(self):
        """What one class loses is S2 at any correlation."""
        for name in ("mature", "emerging", "private", "property"):
            amounts = dict.fromkeys(FUND.amounts, 0) | {name: 12_347, "credit": 10 ** 6, "commodities": 10 ** 6, "currency": 10 ** 6}
            loss = 12_347 * FUND.shocks[f"{name}_fall"]
            self.assertEqual(relieved(at(0, amounts=amounts)), ((loss // 10, -(-loss // 10)),) * 2)


    def test_the_page(self):
        """The table of docs/METHOD.md: the lower ends of the fund's S2 and S at each correlation, and what the sum is more than that S2."""
        page = (ROOT / "docs" / "METHOD.md").read_text("utf-8")
        rows = re.findall(r"^\| (\d+) percent \| ([\d,]+\.\d\d) \| (none|[\d,]+\.\d\d) \| ([\d,]+\.\d\d) \|$", page, re.MULTILINE)
        self.assertEqual([percent for percent, *_ in rows], ["100", "75", "50", "25", "0"])
        case = reference.read((ROOT / "cases" / "fund.case").read_bytes())
        for percent, s2, relief, s in rows:
            thousandths = 10 * int(percent)
            lower, _ = joined(equity_losses(in_package(FUND)), thousandths)
            worked = reference.Rounded(replace(case, shocks=case.shocks | {"equity_correlation": thousandths}))
            self.assertEqual(lower, worked.S2[0])
            euros = lambda cents: in_euros((cents, cents)).split()[0]
            self.assertEqual((s2, relief, s), (euros(lower), euros(SUM[0] - lower) if lower < SUM[0] else "none", euros(worked.S[0])))


class Told(unittest.TestCase):
    def answer(self, case, verdict="RESERVETEKORT"):
        """What is said of a case that was valued, with made-up figures."""
        return Answer("a.case", case=case, status=0, verdict=verdict, figures={name: [1, 2] for name in FIGURES}, numbers={"ufr": 4_200})

    def told(self, answer):
        """The row of JSON, and the line of CSV."""
        report = Report([answer], None)
        row, = json.loads(writing.as_json(report))["valuations"]
        line, = csv.DictReader(io.StringIO(writing.as_csv(report)))
        return row, line

    def test_relief(self):
        row, line = self.told(self.answer(at(500)))
        self.assertEqual((row["ufr"], row["equity_correlation"], row["S2_without_relief"]), (4_200, 500, SUM))
        self.assertEqual([line[name] for name in ("equity_correlation", "S2_without_relief_lower", "S2_without_relief_upper")],
                         ["500", *map(str, SUM)])
        self.assertEqual(list(line)[-3:], ["equity_correlation", "S2_without_relief_lower", "S2_without_relief_upper"])

    def test_no_relief(self):
        """The number is told, also of a file that does not have it, and no other S2."""
        for case in (at(None), at(1_000)):
            row, line = self.told(self.answer(case))
            self.assertEqual((row["equity_correlation"], row["S2_without_relief"]), (1_000, None))
            self.assertEqual([line[name] for name in ("equity_correlation", "S2_without_relief_lower", "S2_without_relief_upper")],
                             ["1000", "", ""])
            self.assertEqual((line["S2_lower"], line["S2_upper"]), ("1", "2"))

    def test_what_was_not_valued(self):
        for answer in (self.answer(at(500), None), self.answer(None)):
            row, line = self.told(answer)
            self.assertEqual((row["equity_correlation"], row["S2_without_relief"]), (None, None))
            self.assertEqual((line["equity_correlation"], line["S2_without_relief_upper"]), ("", ""))


if __name__ == "__main__":
    unittest.main()
