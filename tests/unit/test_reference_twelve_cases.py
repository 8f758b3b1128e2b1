"""Tests of the reference: METHOD, Twelve hand-worked cases."""

import unittest
from fractions import Fraction

from tests.inputs.examples import c1, flat
from tests.reference import reference
from tests.reference.reference import RESERVETEKORT, VRIJ_VERMOGEN, Exact, ExactCurve, listing, read
from tests.unit.reference_shared import C1_LINES, file_of, number_of


class TwelveCases(unittest.TestCase):
    def test_c1(self):
        # The bytes are written here by hand, not by encode.
        data = bytes.fromhex("0076" + "01" + "0000" * 60 + "01" + "000f4240" + "00" * 48
                             + "000000000010c8e0" + "00" * 8 + "0000" * 12 + "00000064" + "030c" + "01cc")
        self.assertEqual(len(data), 224)
        self.assertEqual(data, file_of(c1()))
        self.assertEqual(read(data), c1())
        self.assertEqual(listing(data), C1_LINES)
        self.assertEqual(len(C1_LINES.splitlines()), 11)
        self.assertEqual(reference.rates_part(data), (3, 120))
        self.assertEqual(Exact(c1()).verdict, VRIJ_VERMOGEN)

    def test_c2(self):
        case = c1(amounts=c1().amounts | {"cash": 1_099_999})
        self.assertTrue(listing(file_of(case)).endswith(b"\nV RESERVETEKORT\n"))
        self.assertEqual(Exact(case).verdict, RESERVETEKORT)

    def test_c3(self):
        data = file_of(c1()).replace(bytes(120), bytes.fromhex("fe0c") * 60, 1)
        self.assertEqual(read(data).days, flat(-500))
        self.assertEqual(ExactCurve(read(data)).factor(1), Fraction(200, 199))

    def test_c4(self):
        for pattern, number in (("fc18", 0), ("fc17", 5)):
            self.assertEqual(number_of(file_of(c1()).replace(bytes(120), bytes.fromhex(pattern) * 60, 1)), number)

    def test_c5(self):
        self.assertEqual(ExactCurve(c1(days=flat(100, 101))).factor(1), Fraction(200_000, 200_201))

    def test_c6(self):
        self.assertEqual(ExactCurve(c1()).factor(21), Fraction(250_000, 250_903))

    def test_c7(self):
        self.assertEqual(ExactCurve(c1(days=flat(5_000))).adjusted_growth(21), Fraction(1_049_312, 1_000_000))

    def test_c8(self):
        self.assertEqual(number_of(file_of(c1(days=[[0] + [6_000] * 59]))), 0)
        self.assertEqual(number_of(file_of(c1(days=[[0] + [6_001] * 59]))), 6)

    def test_c9(self):
        parts = [(30_000, 30_000), (40_000, 40_000)] + [(0, 0)] * 4
        self.assertEqual(reference.rounded_S(parts, 500), (60_827, 60_828))

    def test_c10(self):
        self.assertEqual(reference.exact_tso(c1(pension_age=780, mean_age=540)), Fraction(13, 2))

    def test_c11(self):
        self.assertEqual(reference.exact_tso(c1(pension_age=780, mean_age=781)), 2)

    def test_c12(self):
        self.assertEqual(listing(b""), b"R 1\n")


if __name__ == "__main__":
    unittest.main()
