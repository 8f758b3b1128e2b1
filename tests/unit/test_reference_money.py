"""Tests of the reference: required buffers, the widths allowed, and the verdict."""

import unittest
from dataclasses import replace
from unittest import mock

from tests.inputs import examples
from tests.inputs.examples import c1
from tests.reference import reference
from tests.reference.reference import DEKKINGSTEKORT, LOWER, ONBESLIST, RESERVETEKORT, UPPER, VRIJ_VERMOGEN, Exact, Rounded


class Money(unittest.TestCase):
    def test_s1_of_no_shift_is_as_wide_as_l_and_b(self):
        case = replace(examples.up(), shocks=examples.up().shocks | {"up_shift": 0, "down_shift": 0})
        rounded = Rounded(case)
        widths = sum(bracket[UPPER] - bracket[LOWER] for bracket in (rounded.L, rounded.B))
        self.assertGreater(widths, 0)
        self.assertEqual(rounded.S1, (0, widths))
        self.assertEqual(Exact(case).S1, 0)

    def test_allowed_width(self):
        self.assertEqual(reference.allowed_width([0] * 7), 14)
        self.assertEqual(reference.allowed_width([]), 0)
        self.assertEqual(reference.allowed_width([0, 10 ** 8, 1]), 6 + 1)  # 1.6e9 + 36
        self.assertEqual(reference.allowed_width([0] * 4 + [10 ** 8]), 10 + 1)  # 1e10, exactly 1
        self.assertEqual(reference.allowed_width([1] + [0] * 3 + [10 ** 8]), 10 + 2)

    def test_rounded_verdict(self):
        verdict = reference.rounded_verdict
        self.assertEqual(verdict((0, 104), (100, 100), (0, 0)), DEKKINGSTEKORT)
        self.assertEqual(verdict((105, 105), (100, 100), (5, 5)), VRIJ_VERMOGEN)
        self.assertEqual(verdict((105, 105), (100, 100), (6, 6)), RESERVETEKORT)
        self.assertEqual(verdict((105, 105), (100, 100), (5, 6)), ONBESLIST)
        # The first border unclear: the second is not looked at.
        self.assertEqual(verdict((104, 105), (100, 100), (50, 50)), ONBESLIST)
        self.assertEqual(verdict((0, 0), (0, 0), (0, 0)), VRIJ_VERMOGEN)

    def test_s6_without_the_root(self):
        right = Rounded(c1()).S6
        with mock.patch.object(reference, "root", lambda x, end: x):
            wrong = reference.rounded_S6(Rounded(c1()).L, c1())
        self.assertEqual(right, (10_000_000, 10_000_000))
        self.assertNotEqual(wrong, right)
        # without the root of TSO^2 + NSA^2 alone, 100 percent in the place of 10
        self.assertEqual(reference.exact_tso(c1()) ** 2 + reference.exact_nsa_squared(c1()), 100)


if __name__ == "__main__":
    unittest.main()
