"""Tests of the rows of which computed statements are made: the files of limits.py and the cases of to_save.py, by the reference."""

import unittest

from tests.inputs import host_cases, limits, to_save
from tests.reference import reference
from tests.reference.reference import case_refusal, shortest
from tests.unit.reference_shared import number_of


class LimitRows(unittest.TestCase):
    """tests/inputs/limits.py: each limit on both sides, each place of the order."""

    GROUPS = [*limits.groups(), *limits.four_byte_groups()]

    def refusals(self, group):
        return [number_of(data) for name, _, rows in self.GROUPS if name == group for _, data in rows]

    def test_both_sides(self):
        # after the two or three files of another kind, a number that passes and one that does not take turns
        self.assertEqual(self.refusals("amounts"), [1, 10] * 8 + [1])
        self.assertEqual(self.refusals("shocks"), [1, 11] * 12 + [1])
        self.assertEqual(self.refusals("rates"), [5, 1, 1, 5] * 4 + [1])
        self.assertEqual(self.refusals("equity-correlation"), [1, 1, 0, 0, 11, 11])
        self.assertEqual(self.refusals("forwards"), [0, 6] * (len(self.refusals("forwards")) // 2))

    def test_maps(self):
        """Bit 8 may stand, bit 9 may not."""
        self.assertEqual(self.refusals("map"), [1, 1] + [3] * 4 + [3, 1] + [3] * 7 + [1, 1])

    def test_order(self):
        of_equity = [11, 12, 12, 1, 11, 2, 2]
        self.assertEqual(self.refusals("order"), [3, 9, 4, 5, 7, 8, 8, 10, 11, 12, 12, 2, 2, 0, *of_equity, 3, 5, 11, 6])
        self.assertEqual(self.refusals("four-order")[17:], [*of_equity, 1, 4, 1, 5, 5, 11, 6, 0])

    def test_four_bytes(self):
        """A rate that passes 5 is refused by 6, or by nothing."""
        self.assertEqual(self.refusals("four-map"), [1] + [3] * 5 + [1] + [3] * 7 + [1, 3])
        self.assertEqual(self.refusals("four-counts"), [1, 4, 1, 1, 4, 4])
        self.assertEqual(self.refusals("four-rates"), [5, 0, 6, 5, 5, 6, 6, 5, 5, 5, 0, 0, 5, 5, 1, 1])
        self.assertEqual(self.refusals("four-forwards"), [0, 6] * 8)
        self.assertEqual(self.refusals("four-equity-correlation"), [1, 1, 0, 0, 11, 11])
        self.assertEqual(self.refusals("four-order")[:17], [3, 9, 7, 8, 7, 8, 10, 11, 12, 12, 12, 4, 5, 2, 6, 2, 0])

    def test_every_refusal(self):
        for groups in (limits.groups(), limits.four_byte_groups()):
            self.assertEqual({number_of(data) for _, _, rows in groups for _, data in rows}, set(range(13)))

    def test_quick_rows(self):
        rows = {name: [row for row, _ in rows] for name, _, rows in self.GROUPS}
        for name, quick in limits.QUICK.items():
            self.assertEqual([rows[name].count(row) for row in quick], [1] * len(quick), name)

    def test_growth_by_one(self):
        # the files of error 6 have the growth that their row says, and no other at or beyond a limit
        rows = [(2, 1, row) for row in limits.forward_rows()] + [(4, 100, row) for row in limits.four_forward_rows()]
        for rate_bytes, units, (row, data) in rows:
            words = row.replace(",", "").replace(":", "").split()
            n, term, forward = int(words[0]), int(words[3]), int(words[4])
            days = limits.steep_days(n, term, forward)
            s = reference.sums(days)
            growths = {t: t * s[t] - (t - 1) * s[t - 1] for t in range(1, 61)}
            self.assertEqual(growths.pop(term), forward)
            self.assertTrue(all(-2_000 * n * units < growth < 12_000 * n * units for growth in growths.values()), row)
            self.assertIn(limits.rates(*days, rate_bytes=rate_bytes), data)


class SaveRows(unittest.TestCase):
    """tests/inputs/to_save.py: each limit on both sides, each place of the order."""

    def refusals(self, rows):
        return [case_refusal(given) for _, given in rows]

    def test_both_sides(self):
        self.assertEqual(self.refusals(to_save.limit_rows()), [0, 0, 9] + [5] * 6 + [8] * 2 + [10] * 8 + [11] * 13 + [12] * 4)
        self.assertEqual(self.refusals(to_save.count_rows()), [4, 4, 4, 4, 5, 7, 0, 7, 8, 0, 0, 7, 8])
        self.assertEqual(self.refusals(to_save.forward_rows()), [0, 6] * 3)

    def test_order(self):
        for given, expected in ((host_cases.SMALL, [3, 9, 4, 5, 7, 8, 7, 8, 10, 11, 12, 11, 6]),
                                (host_cases.SMALL_FOUR, [3, 9, 7, 8, 7, 8, 10, 11, 12, 4, 5, 11, 6])):
            faults = host_cases.faults_of(given)
            numbers = [int(name.split()[0]) for name, _ in faults]
            self.assertEqual(numbers, expected)
            self.assertEqual(self.refusals(to_save.order_rows(given, faults)), numbers[:-1])
            for number, (_, ways) in zip(numbers, faults):
                for fault in ways:
                    self.assertEqual(case_refusal(fault(given)), number)

    def test_four_bytes(self):
        self.assertEqual(self.refusals(to_save.rate_bytes_rows()), [3] * 4)
        self.assertEqual(self.refusals(to_save.four_rate_rows()), [5, 0, 6, 5, 5, 6, 6, 5])
        self.assertEqual(self.refusals(to_save.forward_rows(4)), [0, 6] * 3)
        self.assertEqual(self.refusals(to_save.end_rows(4)), [0, 0])
        # days of which some rate is out of limits aside
        steep = [number for number in self.refusals(("", given) for given in to_save.steep_cases(4)) if number != 5]
        self.assertGreater(len(steep), 900)
        self.assertEqual(steep, [0, 6] * (len(steep) // 2))

    def test_left_out(self):
        rows = [given for _, given in to_save.omission_rows()]
        self.assertEqual(self.refusals(to_save.omission_rows()), [0] * 8)
        self.assertEqual({shortest(given)[1] for given in rows}, {0x66 | ufr | bonds | amounts for ufr in (0, 1) for bonds in (0, 8)
                                                                  for amounts in (0, 16)})
        # with the equity correlation any three of the four fields are met in each combination
        maps = [int.from_bytes(shortest(given)[:2], "big") for given in rows]
        for left in (0, 3, 4, 8):
            others = [bit for bit in (0, 3, 4, 8) if bit != left]
            self.assertEqual(len({tuple(bits >> bit & 1 for bit in others) for bits in maps}), 8)


if __name__ == "__main__":
    unittest.main()
