"""Tests of the reference: bonds off the adjusted curve."""

import math
import random
import unittest
from dataclasses import replace
from fractions import Fraction
from unittest import mock

from tests.inputs import examples
from tests.inputs.examples import c1, flat
from tests.reference import reference
from tests.reference.reference import (DEKKINGSTEKORT, LOWER, ONE, SHOCK_LIMITS, UPPER, VRIJ_VERMOGEN, Exact, ExactCurve, Rounded,
                                       containment_and_width, encode, fill)


def old_bond_factors(case, shift=0):
    """The old rule: L and B are pension and bond flows times the factors of the adjusted curve, both of them."""
    return reference.rounded_factors(case, shift, len(case.bonds))


def old_bond_worth(curve, flows):
    """The same in the exact working."""
    return sum((100 * flow * curve.factor(t) for t, flow in enumerate(flows, 1)), Fraction(0))


def figures(case):
    """Every number of both workings, and all that goes to the lent buffers."""
    exact, rounded = Exact(case), Rounded(case)
    found = {name: getattr(rounded, name) for name in (*reference.MONEY, "verdict", "WL", "WB")}
    found |= {f"exact {name}": getattr(exact, name)
              for name in (*reference.EXACT, "verdict")}
    return found | {"falls": rounded.falls, "buffers": reference.buffers(rounded)}


def by_the_old_rule(case):
    with (mock.patch.object(reference, "bond_factors", old_bond_factors),
          mock.patch.object(ExactCurve, "bond_worth", old_bond_worth)):
        return figures(case)


def power(case, t, shift=0):
    """1 + R(t), from the days themselves."""
    n = len(case.days)
    return Fraction(100_000 * n + sum(day[t - 1] + shift for day in case.days), 100_000 * n)


class Bonds(unittest.TestCase):
    """METHOD, Bonds off the adjusted curve: bond flows at every term use the rule of factors up to term 20, on all three curves."""

    def random_case(self, rng, days=None, k=60):
        flow = lambda: rng.choice([0, 10 ** 8, rng.randint(0, 10 ** 8)])
        return replace(examples.random_case(rng, days), bonds=[flow() for _ in range(k)])

    def test_exact_factors_by_hand(self):
        five, low = ExactCurve(c1(days=flat(5_000))), ExactCurve(c1(days=flat(-1_000)), -1_000)
        two_days = ExactCurve(c1(days=flat(100, 101)))
        for t in (1, 20, 21, 30, 60):
            self.assertEqual(five.bond_factor(t), Fraction(100, 105) ** t)
            self.assertEqual(ExactCurve(c1()).bond_factor(t), 1)
            self.assertEqual(low.bond_factor(t), Fraction(50, 49) ** t)
            self.assertEqual(two_days.bond_factor(t), Fraction(200_000, 200_201) ** t)
        # 1.05^-30 and 0.98^-60 from a table
        self.assertEqual(int(five.bond_factor(30) * 10 ** 18), 231_377_448_655_858_168)
        self.assertEqual(int(low.bond_factor(60) * 10 ** 18), 3_360_744_205_060_214_960)
        # C6 and C7 are of the adjusted curve
        self.assertEqual(ExactCurve(c1()).factor(21), Fraction(250_000, 250_903))
        self.assertEqual(five.bond_factor(20) / five.factor(21), Fraction(1_049_312, 1_000_000))

    def test_exact_factor_is_the_power(self):
        for case in (examples.bent(), examples.long(), self.random_case(random.Random(41), days=7)):
            for shift in (0, 250, -410):
                curve = ExactCurve(case, shift)
                for t in range(1, 61):
                    self.assertEqual(curve.bond_factor(t), power(case, t, shift) ** -t)
                    self.assertEqual(curve.bond_factor(t) == curve.factor(t), t <= 20)

    def test_exact_worth_is_the_sum_of_flows_times_factors(self):
        rng = random.Random(42)
        for k in (0, 1, 20, 21, 60):
            case = self.random_case(rng, days=2, k=k)
            exact = Exact(case)
            for curve, shift in zip((exact.base, exact.up, exact.down), reference.shifts(case).values()):
                plain = sum(100 * flow * power(case, t, shift) ** -t for t, flow in enumerate(case.bonds, 1))
                self.assertEqual(curve.bond_worth(case.bonds), plain)
            self.assertEqual(exact.B, exact.base.bond_worth(case.bonds))

    def test_rounded_factors_by_hand(self):
        """1.05^-30 is 0.231377448655858..., 1.05^-60 is 0.053535523746494..."""
        brackets = reference.bond_factors(c1(days=flat(5_000), bonds=[1] * 60))
        self.assertEqual(len(brackets), 61)
        for t, below in ((30, 231_377_448_655), (60, 53_535_523_746)):
            lower, upper = brackets[t]
            self.assertTrue(lower <= below < upper)
            self.assertLess(upper - lower, 2 * t)
        # two steps: 10^12 x 100 / 105 is 952,380,952,380.95.., and of the lower or the upper one of these x 100 / 105
        self.assertEqual(brackets[1], (952_380_952_380, 952_380_952_381))
        self.assertEqual(brackets[2], (907_029_478_457, 907_029_478_459))

    def test_rounded_factors(self):
        """"from 10^12, t times x N / P(t)", each step rounded down or up."""
        rng = random.Random(43)
        for days in (1, 3, 70):
            case = self.random_case(rng, days)
            for shift in reference.shifts(case).values():
                brackets = reference.bond_factors(case, shift)
                for t in range(1, 61):
                    lower = upper = 10 ** 12
                    for _ in range(t):
                        lower, upper = math.floor(lower / power(case, t, shift)), math.ceil(upper / power(case, t, shift))
                    self.assertEqual(brackets[t], (lower, upper))

    def test_ufr(self):
        """B does not move with the UFR; L does."""
        rng = random.Random(44)
        for case in (examples.long(), self.random_case(rng), self.random_case(rng)):
            case = replace(case, pension=[10 ** 7] * 25)
            low, high = (replace(case, ufr=ufr) for ufr in (0, 5_000))
            self.assertEqual(Exact(low).B, Exact(high).B)
            self.assertEqual(Rounded(low).Bs, Rounded(high).Bs)
            self.assertGreater(Exact(low).L, Exact(high).L)
            self.assertGreater(Rounded(low).L, Rounded(high).L)

    def test_without_bonds_past_20(self):
        """Every number is the one that the old rule gives."""
        rng = random.Random(45)
        case = self.random_case(rng, days=2)
        for bonds in ([], [0] * 60, case.bonds[:1], case.bonds[:20], case.bonds[:20] + [0] * 40, [10 ** 8] * 20):
            one = replace(case, bonds=bonds)
            self.assertEqual(figures(one), by_the_old_rule(one))

    def test_bonds_past_20(self):
        """Another B on all three curves; L, S6, the widths allowed and the buffers are as they were."""
        case = replace(examples.up(), pension=[10 ** 8] * 30, days=examples.bent().days)
        for bonds in ([0] * 20 + [10 ** 6], [10 ** 8] * 21, [0] * 59 + [10 ** 6], [10 ** 8] * 60):
            one = replace(case, bonds=bonds)
            new, old = figures(one), by_the_old_rule(one)
            changed = {name for name in new if new[name] != old[name]}
            self.assertEqual(changed - {"verdict", "exact verdict"},
                             {"B", "A", "S1", "S", "exact B", "exact A", "exact S1", "exact S_squared", "falls"})
            for name in ("up", "down"):
                self.assertNotEqual(new["falls"][name], old["falls"][name])

    def test_verdict(self):
        """The fund `deepest` has free assets; by the old rule not even 105 percent."""
        self.assertEqual(figures(examples.deepest())["verdict"], VRIJ_VERMOGEN)
        self.assertEqual(figures(examples.deepest())["exact verdict"], VRIJ_VERMOGEN)
        self.assertEqual(by_the_old_rule(examples.deepest())["verdict"], DEKKINGSTEKORT)
        self.assertEqual(by_the_old_rule(examples.deepest())["exact verdict"], DEKKINGSTEKORT)

    def test_s1_by_hand(self):
        """A flow of 1,000,000 at term 21, flat 0: 1.01^-21 is 0.811430168650787..., and no pensions."""
        case = replace(examples.past_20(), pension=[0])
        rounded, exact = Rounded(case), Exact(case)
        self.assertEqual(rounded.B, (10 ** 8, 10 ** 8))
        self.assertEqual(exact.S1, 10 ** 8 * (1 - Fraction(100, 101) ** 21))
        self.assertEqual(rounded.Bs["up"], (81_143_016, 81_143_017))
        self.assertEqual(rounded.S1, (18_856_983, 18_856_984))
        self.assertEqual(exact.down.bond_worth(case.bonds), 10 ** 8 * Fraction(200, 199) ** 21)

    def check_brackets(self, case):
        """Exact B in its bracket and no bracket wider than allowed, on all three curves."""
        exact, rounded = Exact(case), Rounded(case)
        for name, shift in reference.shifts(case).items():
            curve = getattr(exact, name)
            lower, upper = rounded.Bs[name]
            self.assertTrue(lower <= curve.bond_worth(case.bonds) <= upper)
            self.assertLessEqual(upper - lower, rounded.WB)
            for t, (lower, upper) in enumerate(reference.bond_factors(case, shift)[1:], 1):
                self.assertTrue(lower <= curve.bond_factor(t) * ONE <= upper)
                self.assertLessEqual(upper - lower, 4 * t * t)
        self.assertEqual(rounded.B, rounded.Bs["base"])

    def test_brackets(self):
        rng = random.Random(46)
        for k in (1, 20, 21, 35, 60, 60):
            self.check_brackets(self.random_case(rng, rng.choice([1, 2, 3]), k))
        self.check_brackets(self.random_case(rng, 70))
        for rate in (-1_000, 10_000):
            self.check_brackets(c1(days=flat(rate), bonds=[10 ** 8] * 60, shocks=dict(SHOCK_LIMITS)))

    def test_largest_factor(self):
        """Flat -1,000 with a down shift of 1,000, at term 60: with 70 days N x factor is above 2^64."""
        for n in (1, 70):
            case = replace(examples.deepest(), days=flat(-1_000) * n)
            self.check_brackets(case)
            self.assertEqual(containment_and_width(case), [])
            lower, upper = reference.bond_factors(case, -1_000)[60]
            self.assertTrue(lower <= 3_360_744_205_060 < upper)
            self.assertEqual(100_000 * n * lower > 2 ** 64, n == 70)
            self.assertEqual(figures(case), figures(examples.deepest()))

    def test_factors_given(self):
        """"the window's factors stay the adjusted ones": bonds change neither factors nor zero rates."""
        case = examples.long()
        with_bonds, without = Rounded(case), Rounded(replace(case, bonds=[]))
        self.assertEqual(reference.buffers(with_bonds), reference.buffers(without))
        factors, rates = [0] * 240, [0] * 240
        self.assertIsNone(fill(encode(case, True, True, True), factors, rates))
        bonds, exact = reference.bond_factors(case), ExactCurve(case)
        for t in range(1, 61):
            given = tuple(factors[2 * t - 2:2 * t])
            self.assertTrue(given[LOWER] <= exact.factor(t) * ONE <= given[UPPER])
            self.assertEqual(given == bonds[t], t <= 20)
            self.assertEqual(tuple(rates[2 * t - 2:2 * t]), reference.zero_rate(given, t))


if __name__ == "__main__":
    unittest.main()
