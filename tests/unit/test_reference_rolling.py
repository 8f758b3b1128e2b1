"""The reference of a rolling window: what it holds, its refusals and their order, and its valuation, against numbers worked by hand."""

import random
import unittest
from dataclasses import replace

from tests.inputs import examples
from tests.reference import reference, rolling
from tests.reference.reference import Given, Rounded
from tests.reference.rolling import EMPTY, RATES, Window, damaged, days_held, placed

CASE = reference.given_of(examples.c1())
LOW, HIGH, RISING = [-1_000] * 60, [10_000] * 60, list(range(1, 61))
STEEP = [0] + [6_001] * 59  # refused by 6: C8


def put(values, at, value):
    return [*values[:at], value, *values[at + 1:]]


def window_of(*days, start=0, free=0):
    """The window of these days, every other slot filled with the same number."""
    return placed(list(days), start, [free] * RATES)


class Held(unittest.TestCase):
    def test_empty(self):
        self.assertEqual(EMPTY, (0, 0, [0] * 4_200, [0] * 60))
        self.assertEqual(days_held(EMPTY), [])

    def test_first_day(self):
        self.assertEqual(rolling.add(EMPTY, RISING), (0, (1, 0, RISING + [0] * 4_140, RISING)))

    def test_second_day(self):
        window = rolling.add(rolling.add(EMPTY, RISING).window, HIGH).window
        self.assertEqual(window, (2, 0, RISING + HIGH + [0] * 4_080, [10_000 + t for t in range(1, 61)]))

    def test_drop_keeps_the_slot(self):
        window = Window(2, 0, RISING + LOW + [7] * 4_080, [t - 1_000 for t in range(1, 61)])
        self.assertEqual(rolling.drop(window), (0, (1, 1, window.rates, LOW)))

    def test_round_the_end(self):
        """Slot 69 and slot 0 are neighbours."""
        window = Window(1, 69, [7] * 4_140 + RISING, RISING)
        added = rolling.add(window, LOW).window
        self.assertEqual(added, (2, 69, LOW + [7] * 4_080 + RISING, [t - 1_000 for t in range(1, 61)]))
        self.assertEqual(days_held(added), [RISING, LOW])
        self.assertEqual(rolling.drop(added), (0, (1, 0, added.rates, LOW)))

    def test_scripts(self):
        """"After every list of additions and drops from an empty window, it holds the days added and not dropped, oldest first, each stored
        sum is that of the days held"."""
        rng = random.Random(70)
        for share in (0.3, 0.6, 0.95):
            window, days = EMPTY, []
            for _ in range(300):
                if rng.random() < share:
                    day = [rng.randint(-1_000, 10_000) for _ in range(60)]
                    refusal, window = rolling.add(window, day)
                    self.assertEqual(refusal, 15 if len(days) == 70 else 0)
                    days = days if refusal else days + [day]
                else:
                    refusal, window = rolling.drop(window)
                    self.assertEqual(refusal, 0 if days else 16)
                    days = days[1:]
                self.assertEqual(days_held(window), days)
                self.assertEqual(window.sums, [sum(day[t] for day in days) for t in range(60)])
                self.assertFalse(damaged(window))


class Damaged(unittest.TestCase):
    TWO = window_of(RISING, LOW, start=69, free=-5)

    def test_right(self):
        full = [[rate] * 60 for rate in range(70)]
        for window in (EMPTY, self.TWO, window_of(LOW), window_of(HIGH, start=69), window_of(start=69), window_of(*full, start=33)):
            self.assertFalse(damaged(window))

    def test_count(self):
        for count in (0, 1, 3, 70, 71, 1 << 32, 1 << 63, (1 << 64) - 1):
            self.assertTrue(damaged(self.TWO._replace(count=count)))
        same = window_of(*[RISING] * 70)
        self.assertFalse(damaged(same))
        self.assertTrue(damaged(same._replace(count=71, sums=[71 * t for t in range(1, 61)])))

    def test_start(self):
        for start in (0, 68, 70, 139, 1 << 32, 1 << 63, (1 << 64) - 1):
            self.assertTrue(damaged(self.TWO._replace(start=start)))
        alike = window_of(*[RISING] * 70)
        for start, wrong in ((0, False), (69, False), (70, True)):
            self.assertEqual(damaged(alike._replace(start=start)), wrong)
            self.assertEqual(damaged(EMPTY._replace(start=start)), wrong)

    def test_held_rate(self):
        """A rate past its limits, with its sum as it must be, in the first and the last place that is held."""
        for rate, wrong in ((-1_001, True), (-1_000, False), (10_000, False), (10_001, True), (-32_768, True), (32_767, True)):
            for first, last in ((put(RISING, 0, rate), LOW), (RISING, put(LOW, 59, rate))):
                self.assertEqual(damaged(window_of(first, last, start=69)), wrong)

    def test_free_slot(self):
        for free in (-32_768, -1_001, 10_001, 32_767):
            self.assertFalse(damaged(window_of(RISING, LOW, start=69, free=free)))
            self.assertFalse(damaged(window_of(free=free)))

    def test_sum(self):
        for term in (0, 59):
            for more in (-1, 1, 1 << 16, 1 << 32):
                self.assertTrue(damaged(self.TWO._replace(sums=put(self.TWO.sums, term, self.TWO.sums[term] + more))))
                self.assertTrue(damaged(EMPTY._replace(sums=put(EMPTY.sums, term, more))))

    def test_rate_without_its_sum(self):
        self.assertTrue(damaged(self.TWO._replace(rates=put(self.TWO.rates, 69 * 60, 2))))


class Refused(unittest.TestCase):
    FULL = window_of(*[RISING] * 70, start=1)
    WRONG = FULL._replace(sums=put(FULL.sums, 0, 0))

    def refused(self, number, answer, window):
        self.assertEqual(answer, (number, window))

    def test_add(self):
        for rate in (-1_001, 10_001, 70_000, -40_000, -(1 << 31), (1 << 31) - 1):
            for day in (put(RISING, 0, rate), put(RISING, 59, rate)):
                self.refused(5, rolling.add(EMPTY, day), EMPTY)
                self.refused(15, rolling.add(self.FULL, day), self.FULL)
                self.refused(27, rolling.add(self.WRONG, day), self.WRONG)
                self.refused(27, rolling.add(self.WRONG._replace(count=3), day), self.WRONG._replace(count=3))
        self.refused(15, rolling.add(self.FULL, RISING), self.FULL)
        self.assertEqual(rolling.add(EMPTY, put(LOW, 59, 10_000)).refusal, 0)

    def test_drop(self):
        self.refused(16, rolling.drop(EMPTY), EMPTY)
        self.refused(16, rolling.drop(EMPTY._replace(start=69)), EMPTY._replace(start=69))
        for wrong in (EMPTY._replace(start=70), EMPTY._replace(sums=[1] * 60), self.WRONG):
            self.refused(27, rolling.drop(wrong), wrong)


class Valued(unittest.TestCase):
    WINDOW = window_of([150] * 60, [150] * 60, [300] * 60, start=68, free=-5)
    FACTORS, ZERO_RATES = list(range(243)), list(range(1_000, 1_241))

    def value(self, window, given=CASE, factors=FACTORS, rates=ZERO_RATES):
        return rolling.value(window, given, list(factors), list(rates))

    def test_days_of_the_window(self):
        """Three days whose mean is 200: as a flat file of 200, and not as the case's own day of 0."""
        flat = Rounded(examples.c1(days=examples.flat(200)))
        valued = self.value(self.WINDOW)
        self.assertEqual((valued.refusal, valued.rounded.L, valued.rounded.verdict), (0, flat.L, flat.verdict))
        self.assertEqual(valued.rounded.L, (99_800_399, 99_800_400))  # 1,000,000 euros over 1.002
        self.assertEqual(valued.factors, [end for bracket in flat.factors[1:] for end in bracket] + [240, 241, 242])
        self.assertEqual(valued.rates, [end for bracket in flat.zero_rates[1:] for end in bracket] + [1_240])

    def test_same_days(self):
        valued = self.value(self.WINDOW)
        for start, free in ((0, 0), (69, 32_767)):
            other = self.value(placed(days_held(self.WINDOW), start, [free] * RATES))
            self.assertEqual((other.factors, other.rates, other.rounded.L), (valued.factors, valued.rates, valued.rounded.L))

    def refused(self, number, window, given=CASE, factors=FACTORS, rates=ZERO_RATES):
        self.assertEqual(self.value(window, given, factors, rates), (number, None, factors, rates))

    def test_order(self):
        """Each number of the order, with all that come later."""
        wrong, steep = self.WINDOW._replace(sums=[0] * 60), window_of(STEEP)
        bad = Given(5_001, [10_001] * 61, [], [0] * 61, CASE.amounts | {"cash": 10 ** 11 + 1}, CASE.shocks | {"duration": 501}, 0, 0, 0)
        self.refused(27, wrong, bad, [1] * 239, [2] * 239)
        self.refused(13, EMPTY, bad, [1] * 239, [2] * 240)
        self.refused(13, EMPTY, bad, [1] * 240, [2] * 239)
        for number, repaired in ((9, {"ufr": 5_000}), (4, {"rates": [10_001] * 60}), (5, {"rates": STEEP}), (7, {"pension": [10 ** 8 + 1]}),
                                 (8, {"pension": [0]}), (7, {"bonds": [10 ** 8 + 1]}), (8, {"bonds": []}), (10, {"amounts": CASE.amounts}),
                                 (11, {"shocks": CASE.shocks}), (12, {"heads": 1}), (6, {"rates": CASE.rates})):
            for window in (EMPTY, steep, self.WINDOW):
                self.refused(number, window, bad)
            bad = replace(bad, **repaired)
        self.refused(4, EMPTY, bad)
        self.refused(6, steep, bad)
        self.assertEqual(self.value(self.WINDOW, bad).refusal, 0)

    def test_mean_decides_6(self):
        """A day that 6 refuses alone is made good by another."""
        self.refused(6, window_of(STEEP))
        self.refused(6, window_of(STEEP, STEEP))
        self.assertEqual(self.value(window_of(STEEP, [0] + [5_999] * 59)).refusal, 0)


if __name__ == "__main__":
    unittest.main()
