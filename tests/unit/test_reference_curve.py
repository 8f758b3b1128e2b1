"""Tests of the reference: curves and factors in both workings."""

import random
import unittest
from fractions import Fraction
from unittest import mock

from tests.inputs import examples
from tests.inputs.examples import c1, flat
from tests.reference import reference
from tests.reference.reference import LOWER, ONE, UPPER, ExactCurve, Rounded, containment_and_width


class Curves(unittest.TestCase):
    def test_weights(self):
        self.assertEqual(list(reference.WEIGHTS), list(range(21, 61)))
        self.assertEqual((reference.WEIGHTS[21], reference.WEIGHTS[40], reference.WEIGHTS[60]), (86, 891, 998))

    def test_exact_worth_is_the_sum_of_flows_times_factors(self):
        rng = random.Random(12)
        for _ in range(3):
            case = examples.random_case(rng, days=2)
            curve = ExactCurve(case, -170)
            plain = sum(100 * flow * curve.factor(t) for t, flow in enumerate(case.pension, 1))
            self.assertEqual(curve.pension_worth(case.pension), plain)

    def test_product_to_20_is_the_power(self):
        curve = ExactCurve(examples.bent())
        for t in range(1, 21):
            self.assertEqual(curve.product(t), (1 + curve.mean_rate(t)) ** t)
        self.assertNotEqual(curve.product(21), (1 + curve.mean_rate(21)) ** 21)


class WrongCurves(unittest.TestCase):
    """Other workings of a factor, each told apart from the right one."""

    def test_mean_rounded_to_a_step(self):
        case = c1(days=flat(100, 101))
        right = Rounded(case).factors[1]
        self.assertEqual(right, (ONE * 200_000 // 200_201, ONE * 200_000 // 200_201 + 1))
        for rounded_mean in (100, 101):
            self.assertNotEqual(Rounded(c1(days=flat(rounded_mean))).factors[1], right)

    def test_ufr_mixed_into_zero_rates(self):
        curve = ExactCurve(c1())
        wrong = (1 + Fraction(86 * 4_200, 1_000 * reference.STEPS)) ** -21
        lower, upper = Rounded(c1()).factors[21]
        self.assertTrue(lower <= curve.factor(21) * ONE <= upper)
        self.assertFalse(lower <= wrong * ONE <= upper)

    @staticmethod
    def straight(old, weighed):
        """next_factor without its crossing of ends."""
        return tuple(reference.divide(old[end] * ONE, weighed[end], end) for end in (LOWER, UPPER))

    def test_lower_factor_divided_by_lower_growth(self):
        case = examples.bent()
        right = Rounded(case)
        with mock.patch.object(reference, "next_factor", self.straight):
            wrong = Rounded(case)
        self.assertEqual(right.factors[:21], wrong.factors[:21])
        for t in range(21, 61):
            self.assertNotEqual(right.factors[t], wrong.factors[t])

    def test_lower_factor_divided_by_lower_growth_leaves_the_bracket(self):
        with mock.patch.object(reference, "next_factor", self.straight):
            broken = [sentence for seed in range(5)
                      for sentence in containment_and_width(examples.random_case(random.Random(seed), days=3))]
        self.assertTrue(any("exact factor" in sentence for sentence in broken))

    def test_year_61_weighted_with_998(self):
        case = examples.bent()
        N, P = reference.points(case)
        right = Rounded(case).factors
        growth_60 = [reference.growth(N, P, 60, end) for end in (LOWER, UPPER)]
        ufr_growth = reference.weighed_growth(N, P, case.ufr, 61, LOWER)
        weighed = [reference.divide(2 * growth_60[end] + 998 * ufr_growth, 1_000, end) for end in (LOWER, UPPER)]
        self.assertNotEqual(reference.next_factor(right[60], weighed), right[61])
        self.assertEqual(reference.next_factor(right[60], (ufr_growth, ufr_growth)), right[61])


if __name__ == "__main__":
    unittest.main()
