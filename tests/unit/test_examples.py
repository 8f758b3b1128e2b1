"""Tests of examples.py: which faults the numbers of its cases show."""

import unittest

from tests.inputs import examples
from tests.reference import reference
from tests.reference.reference import LOWER, UPPER, Exact, Rounded, containment_and_width, encode, read


class Examples(unittest.TestCase):
    def test_every_field_is_told_apart(self):
        for case in (examples.up(), examples.down()):
            self.assertTrue(all(rate != 0 for day in case.days for rate in day))
            for values, least in ((case.pension, 3), ([flow for flow in case.bonds if flow], 3),
                                  (list(case.amounts.values()), 8), (list(case.shocks.values()), 12),
                                  ([case.heads, case.pension_age, case.mean_age, case.ufr], 4)):
                self.assertGreaterEqual(len(values), least)
                self.assertNotIn(0, values)
                self.assertEqual(len(set(values)), len(values))
            self.assertGreater(case.pension_age, case.mean_age)
            self.assertTrue(0 < case.shocks["correlation"] < 1_000)
            self.assertNotEqual(case.ufr, 4_200)

    def test_which_curve_decides(self):
        for case, sign in ((examples.up(), 1), (examples.down(), -1)):
            exact, rounded = Exact(case), Rounded(case)
            self.assertGreater(sign * (exact.fall(exact.up) - exact.fall(exact.down)), 0)
            self.assertGreater(exact.S1, 0)
            self.assertGreater(rounded.S1[LOWER], 0)
            self.assertEqual(rounded.verdict, exact.verdict)
        self.assertGreater(Exact(examples.down()).S5, 100 * examples.down().amounts["credit"])

    def test_files(self):
        for case in (examples.bent(), examples.up(), examples.down()):
            self.assertEqual(read(encode(case, True, bool(case.bonds), True)), case)
            self.assertEqual(containment_and_width(case), [])

    def test_deepest(self):
        exact, rounded = Exact(examples.deepest()), Rounded(examples.deepest())
        self.assertEqual(read(encode(examples.deepest(), False, True, True)), examples.deepest())
        self.assertGreater(rounded.falls["down"][LOWER], 0)
        self.assertLess(rounded.falls["up"][UPPER], 0)
        self.assertEqual(exact.S1, exact.fall(exact.down))

    def test_long(self):
        case = examples.long()
        self.assertEqual(read(encode(case, True, True, True)), case)
        self.assertEqual(containment_and_width(case), [])
        # Q is in the thousands on both sides, so that a width counts its flows and not their number alone.
        self.assertGreater(Rounded(case).WL, 10_000)
        self.assertGreater(Rounded(case).WB, 1_000)

    def test_rounding_of_Q(self):
        self.assertEqual((Rounded(examples.no_flows()).WL, Rounded(examples.no_flows()).WB), (6, 4))
        self.assertEqual(Rounded(examples.whole_quotient()).WL, 2 * 5 + 1)

    def test_undecided(self):
        for border, exact in ((examples.first_border, reference.DEKKINGSTEKORT), (examples.first_border, reference.RESERVETEKORT),
                              (examples.second_border, reference.RESERVETEKORT), (examples.second_border, reference.VRIJ_VERMOGEN)):
            case = examples.undecided(border, exact)
            self.assertEqual((Rounded(case).verdict, Exact(case).verdict), (reference.ONBESLIST, exact))


if __name__ == "__main__":
    unittest.main()
