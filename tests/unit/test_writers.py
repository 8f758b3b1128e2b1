"""Tests of the writers of computed statements."""

import unittest
from fractions import Fraction

from tests.inputs import examples, host_cases
from tests.reference.reference import Surd
from tests.writers import computed, equity, stored
from tests.writers.antt import given_term, present_term


class Written(unittest.TestCase):
    def test_computed_statements(self):
        # The proofs hold the numbers that the reference gives now.
        self.assertEqual(stored.others(computed.contents()), [])

    def test_a_path_in_two_tables(self):
        self.assertEqual(computed.joined([{"a": 1}, {"b": 2}]), {"a": 1, "b": 2})
        with self.assertRaises(ValueError):
            computed.joined([{"a": 1}, {"b": 2, "a": 1}])

    def test_what_is_there(self):
        self.assertEqual(present_term(True, False, False, True), "record { ufr = true; bonds = false; amounts = false; equity = true }")
        with self.assertRaises(ValueError):
            present_term(True, False, False)

    def test_numbers_with_a_name(self):
        """Shocks of 0 are no_shocks where the equity classes fall together, and only there."""
        self.assertIn(" no_amounts no_shocks ", given_term(host_cases.SMALL))
        changed = host_cases.put(host_cases.SMALL, "shocks", "equity_correlation", 0)
        self.assertIn(" no_amounts (shocks_of 0 0 0 0 0 0 0 0 0 0 0 0 0) ", given_term(changed))


class Equity(unittest.TestCase):
    def test_root_between(self):
        """Of squares and what is beside them, and of a number that holds a root: 3 + 2 x root 2 is the square of 1 + root 2."""
        self.assertEqual([equity.root_between(square) for square in (0, 1, 3, 4, 8, 9, 10)], [0, 1, 1, 2, 2, 3, 3])
        self.assertEqual(equity.root_between(Surd(Fraction(30_000), Fraction(20_000), Fraction(2))), 241)

    def test_least_cash(self):
        """C1 with 1,100,000 euros of cash just reaches L + S."""
        self.assertEqual(equity.least_cash(examples.c1()), 1_100_000)


if __name__ == "__main__":
    unittest.main()
