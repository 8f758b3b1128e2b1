"""Tests of the reference: containment, widths and verdicts."""

import random
import unittest
from collections import Counter
from dataclasses import replace
from fractions import Fraction

from tests.inputs import examples
from tests.inputs.examples import flat
from tests.reference import reference
from tests.reference.reference import ONBESLIST, SHOCK_LIMITS, VRIJ_VERMOGEN, Rounded, containment_and_width


class ContainmentAndWidth(unittest.TestCase):
    def test_random_cases(self):
        rng = random.Random(2026)
        verdicts = Counter()
        for _ in range(60):
            case = examples.random_case(rng)
            rounded = Rounded(case)
            verdicts[rounded.verdict] += 1
            self.assertEqual(containment_and_width(case, rounded=rounded), [], case)
        self.assertEqual(set(verdicts), set(reference.VERDICTS), verdicts)

    def test_full_file(self):
        rng = random.Random(70)
        case = replace(examples.random_case(rng, days=70), pension=[rng.randint(0, 10 ** 8) for _ in range(120)],
                       bonds=[rng.randint(0, 10 ** 8) for _ in range(60)])
        self.assertEqual(containment_and_width(case), [])

    def test_ends_of_the_limits(self):
        for rate, ufr in ((-1_000, 0), (-1_000, 5_000), (10_000, 0), (10_000, 5_000)):
            case = replace(examples.up(), ufr=ufr, days=flat(rate, rate, rate), pension=[10 ** 8] * 120,
                           bonds=[10 ** 8] * 60, shocks=dict(SHOCK_LIMITS))
            self.assertEqual(containment_and_width(case), [])

    def broken_by(self, **wrong):
        """What the check of containment and width says of the "up" fund with some figures of the rounded working replaced."""
        rounded = Rounded(examples.up())
        self.assertEqual(containment_and_width(examples.up(), rounded=rounded), [])
        for name, value in wrong.items():
            setattr(rounded, name, value)
        return containment_and_width(examples.up(), rounded=rounded)

    def test_fakes_fail(self):
        for name in ("L", "B", "A", "S"):
            self.assertRegex(self.broken_by(**{name: (0, 2 ** 53)})[0], f"^{name} is at most")
        self.assertEqual(len(self.broken_by(factors=[(0, 2 ** 53)] * 121)), 120)
        self.assertEqual(len(self.broken_by(zero_rates=[(-2_000, 20_000)] * 121)), 120)
        self.assertIn("undecided", self.broken_by(verdict=ONBESLIST)[0])
        self.assertIn("verdict", self.broken_by(verdict=VRIJ_VERMOGEN)[0])
        right = Rounded(examples.up())
        for name in reference.MONEY:
            lower, upper = getattr(right, name)
            for moved in ((upper + 1, upper + 1), (lower - 1, lower - 1)):
                self.assertIn(f"exact {name} lies in its bracket", self.broken_by(**{name: moved}))
        for t in (1, 20, 21, 60, 61, 120):
            for wrong in (1, -1):
                name, width = "exact zero rate %d lies in its bracket" % t, 3 * wrong
                rates = list(right.zero_rates)
                rates[t] = (rates[t][0] + width, rates[t][1] + width)
                self.assertEqual(self.broken_by(zero_rates=rates), [name])

    def test_margins_through_squares(self):
        class Fund:
            L, S_squared = Fraction(100), Fraction(50)  # S is 7.07...
        # WL = WB = 0 leaves a margin of 8 around A = 107.07 and of 0 around 20 A = 2,100.
        for A, within in ((98, False), (99, False), (Fraction(99_072, 1_000), True), (100, True), (107, True),
                          (Fraction(115_071, 1_000), True), (Fraction(115_072, 1_000), False), (116, False)):
            Fund.A = Fraction(A)
            self.assertEqual(reference.within_margins(Fund, 0, 0), within, A)
        Fund.S_squared, Fund.A = Fraction(10 ** 6), Fraction(105)
        self.assertTrue(reference.within_margins(Fund, 0, 0))
        Fund.A = Fraction(106)
        self.assertFalse(reference.within_margins(Fund, 0, 0))
        self.assertTrue(reference.within_margins(Fund, 1, 0))  # |20 A - 21 L| = 20 <= 21


if __name__ == "__main__":
    unittest.main()
