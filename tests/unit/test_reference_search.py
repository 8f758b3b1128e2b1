"""Tests of the reference: zero rates, and the search for them."""

import random
import unittest

from tests.inputs import examples
from tests.inputs.examples import c1, flat
from tests.reference import reference
from tests.reference.reference import ENDS, LOWER, ONE, UPPER, Rounded, StepsLeft


class ZeroRates(unittest.TestCase):
    def test_scan_against_bisection(self):
        for case in (examples.bent(), c1(days=flat(-1_000)), c1(days=flat(10_000), ufr=5_000)):
            factors = reference.rounded_factors(case)
            for t in (1, 2, 21):
                self.assertEqual(reference.zero_rate(factors[t], t, "scan"), reference.zero_rate(factors[t], t))
        for t in (60, 120):
            factor = reference.rounded_factors(examples.bent())[t]
            self.assertEqual(reference.zero_rate(factor, t, "scan"), reference.zero_rate(factor, t))

    def test_zero_rate_of_a_whole_step(self):
        # At 0 both results are 10^12 itself, so the bracket closes.
        self.assertEqual(reference.zero_rate((ONE, ONE), 7), (0, 0))


def left_by_sets(passes, end, steps):
    """What reference.halvings gives, as sets: from a set of all steps each test takes those that it rules out."""
    found = [set(steps)]
    for _ in range(reference.TESTS):
        left = sorted(found[-1])
        half = len(left) // 2
        step = left[half - 1] if len(left) % 2 == 0 and end == UPPER else left[half]
        if len(left) == 1:
            ruled_out = []
        elif end == LOWER:
            ruled_out = [other for other in left if (other < step if passes(step) else other >= step)]
        else:
            ruled_out = [other for other in left if (other > step if passes(step) else other <= step)]
        found.append(found[-1] - set(ruled_out))
    return found


def always(step):
    return True


def never(step):
    return False


class Halving(unittest.TestCase):
    """METHOD, The search for a zero rate."""

    def check_by_sets(self, passes, end, left):
        found = reference.halvings(passes, end, left)
        as_sets = [set(range(first, last + 1)) for first, last in found]
        self.assertEqual(as_sets, left_by_sets(passes, end, range(left.first, left.last + 1)))

    def test_by_sets(self):
        """Every first failing or passing step of short intervals; then tests that pass at random."""
        rng = random.Random(22)
        for count in (1, 2, 3, 4, 5, 7, 8, 12, 15, 16, 17, 31):
            left = StepsLeft(3, 2 + count)
            for border in range(2, 5 + count):
                self.check_by_sets(lambda step: step < border, LOWER, left)
                self.check_by_sets(lambda step: step >= border, UPPER, left)
            for _ in range(20):
                passing = {step for step in range(40) if rng.random() < 0.5}
                for end in ENDS:
                    self.check_by_sets(passing.__contains__, end, left)

    def test_all_steps_by_sets(self):
        for border in (0, 1, 5_499, 5_500, 10_999, 11_000, 11_001, 16_500, 22_000, 22_001):
            self.check_by_sets(lambda step: step < border, LOWER, reference.ALL_STEPS)
            self.check_by_sets(lambda step: step >= border, UPPER, reference.ALL_STEPS)

    def test_first_tests_by_hand(self):
        """22,001 steps have one in the middle; 11,000, 5,500 and 2,750 have two."""
        for end, passes, intervals in (
                (LOWER, always, [(0, 22_000), (11_000, 22_000), (16_500, 22_000), (19_250, 22_000)]),
                (LOWER, never, [(0, 22_000), (0, 10_999), (0, 5_499), (0, 2_749)]),
                (UPPER, always, [(0, 22_000), (0, 11_000), (0, 5_500), (0, 2_750)]),
                (UPPER, never, [(0, 22_000), (11_001, 22_000), (16_501, 22_000), (19_251, 22_000)])):
            self.assertEqual(reference.halvings(passes, end)[:4], intervals)

    def test_middle(self):
        for left, lower, upper in (((0, 22_000), 11_000, 11_000), ((0, 10_999), 5_500, 5_499), ((3, 5), 4, 4),
                                   ((7, 8), 8, 7), ((8, 11), 10, 9), ((6, 6), 6, 6)):
            self.assertEqual([reference.middle(StepsLeft(*left), end) for end in ENDS], [lower, upper])

    def test_of_two_steps_one_is_left(self):
        two = StepsLeft(7, 8)
        for end, passes, step in ((LOWER, always, 8), (LOWER, never, 7), (UPPER, always, 7), (UPPER, never, 8)):
            self.assertEqual(reference.halved(two, passes, end), (step, step))

    def test_a_single_step_is_not_tested(self):
        for end in ENDS:
            self.assertEqual(reference.halved(StepsLeft(5, 5), None, end), (5, 5))

    def test_budget(self):
        """"at most 22,001 / 2^j steps, rounded up": this many if all steps pass, and no fewer than 15 tests suffice."""
        counts = [last - first + 1 for first, last in reference.halvings(always, LOWER)]
        self.assertEqual(counts, [22_001, 11_001, 5_501, 2_751, 1_376, 688, 344, 172, 86, 43, 22, 11, 6, 3, 2, 1])
        self.assertEqual(counts, [reference.divide(22_001, 2 ** j, UPPER) for j in range(16)])

    def test_every_step_is_found(self):
        for rate in [*range(0, 22_001, 11), 21_999, 22_000]:
            self.assertEqual(reference.halvings(lambda step: step <= rate, LOWER)[-1], (rate, rate))
            self.assertEqual(reference.halvings(lambda step: step >= rate, UPPER)[-1], (rate, rate))

    def test_test_of_a_step_by_hand(self):
        """Step 2,001 is the rate 1: 10^12 / 1.00001 is 999,990,000,099.99..."""
        below, above = 999_990_000_099, 999_990_000_100
        for factor, lower, upper in (((below, above), False, False), ((above, below), True, True),
                                     ((below, below), True, False), ((above, above), False, True)):
            self.assertEqual([reference.step_passes(2_001, factor, 1, end) for end in ENDS], [lower, upper])
        for step, lower, upper in ((1_999, True, False), (2_000, True, True), (2_001, False, True)):
            self.assertEqual([reference.step_passes(step, (ONE, ONE), 7, end) for end in ENDS], [lower, upper])

    def test_rates(self):
        """Both rates of every term are those that METHOD, The rounded working, defines."""
        for case in (examples.bent(), c1(days=flat(4_200)), c1(days=flat(-1_000), ufr=0), c1(days=flat(10_000))):
            rounded = Rounded(case)
            for t in range(1, 121):
                for end in ENDS:
                    first, last = reference.steps_left(rounded.factors[t], t, end)[-1]
                    self.assertEqual((first - 2_000, last - 2_000), (rounded.zero_rates[t][end],) * 2)


if __name__ == "__main__":
    unittest.main()
