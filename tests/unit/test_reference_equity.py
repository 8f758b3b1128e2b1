"""Tests of the reference: the correlation between the equity classes, S2 as a root, and S, whose square holds that root."""

import random
import unittest
from dataclasses import replace
from decimal import Decimal, localcontext
from fractions import Fraction
from math import isqrt
from unittest import mock

from tests.inputs import examples
from tests.inputs.examples import c1, flat
from tests.reference import reference
from tests.reference.reference import (EQUITY, RESERVETEKORT, VRIJ_VERMOGEN, Exact, Rounded, Surd, at_most_root, encode, exact_verdict,
                                       read, root_at_most)


def fund(euros, thousandths, falls=(1_000,) * 4, **shocks):
    """C1 with these amounts of the four classes, which fall by so much, and this equity correlation."""
    falling = {f"{name}_fall": fall for name, fall in zip(EQUITY, falls)}
    return c1(amounts=c1().amounts | dict(zip(EQUITY, euros)),
              shocks=c1().shocks | falling | shocks | {"equity_correlation": thousandths})


# Losses of 3, 4, 12 and 84 euros: 9 + 16 + 144 + 7,056 = 7,225 = 85 x 85, and the six products of pairs are 12, 36, 252, 48, 336 and 1,008,
# together 1,692. Each row: the correlation, S2 squared in thousandths of a euro squared, and S2 in cents, rounded down and up.
BY_HAND = [
    (0, 7_225_000, (8_500, 8_500)),  # 85
    (1, 7_228_384, (8_501, 8_502)),  # 7,225 + 0.002 x 1,692; 85.0199..
    (500, 8_917_000, (9_442, 9_443)),  # 7,225 + 1,692; 94.4298..
    (999, 10_605_616, (10_298, 10_299)),  # 7,225 + 1.998 x 1,692; 102.9835..
    (1_000, 10_609_000, (10_300, 10_300)),  # 103, the sum
]
LOSSES = 3, 4, 12, 84


def once(losses):
    """Half of what the products of pairs come to in the formula: each pair once instead of twice."""
    return RIGHT_PAIRS(losses) * Fraction(1, 2)


def one_missed(losses):
    *_, private, property_ = losses
    return RIGHT_PAIRS(losses) - private * property_


def neighbours_alone(losses):
    return sum(one * other for one, other in zip(losses, losses[1:]))


def with_themselves(losses):
    return RIGHT_PAIRS(losses) + sum(loss ** 2 for loss in losses)


RIGHT_PAIRS = reference.pairs_product_sum


# Wrong readings of the rounded working: what they take the losses, in tenths of a cent, and the correlation for.

def tenths_as_cents(losses, correlation):
    return reference_S2([10 * loss for loss in losses], correlation)


def each_loss_rounded(losses, correlation):
    return tuple(reference_S2([10 * reference.divide(loss, 10, end) for loss in losses], correlation)[end] for end in reference.ENDS)


def squares_rounded(losses, correlation):
    """The sum of squares and the products are rounded to cents squared one by one, ahead of the root."""
    def at(end):
        squares = reference.divide(sum(loss ** 2 for loss in losses), 100, end)
        return reference.root(squares + reference.divide(2 * correlation * RIGHT_PAIRS(losses), 100_000, end), end)
    return tuple(map(at, reference.ENDS))


def in_tenths_of_thousandths(losses, correlation):
    return reference_S2(losses, correlation // 10)


reference_S2 = reference.rounded_S2


class S2(unittest.TestCase):
    def test_by_hand(self):
        for thousandths, square, bracket in BY_HAND:
            case = fund(LOSSES, thousandths)
            self.assertEqual(Exact(case).S2_squared, 10 * square)  # a thousandth of a euro squared is ten cents squared
            self.assertEqual(Rounded(case).S2, bracket)

    def test_tenths_of_a_cent(self):
        """Falls that are no whole cents: losses of 0.1, 0.2, 0.3 and 0.4 cents; squares 0.3 and products of pairs 0.35 cents squared."""
        for thousandths, square, bracket in ((0, Fraction(30, 100), (0, 1)), (500, Fraction(65, 100), (0, 1)), (1_000, 1, (1, 1))):
            case = fund((1, 1, 1, 1), thousandths, (1, 2, 3, 4))
            self.assertEqual((Exact(case).S2_squared, Rounded(case).S2), (square, bracket))

    def test_any_order(self):
        for thousandths, _, bracket in BY_HAND:
            for losses in ((84, 12, 4, 3), (12, 3, 84, 4), (4, 84, 3, 12)):
                self.assertEqual(Rounded(fund(losses, thousandths)).S2, bracket)

    def test_one_class(self):
        """With nothing in three classes the correlation has no part."""
        for at in range(4):
            for thousandths in (0, 500, 1_000):
                case = fund([7 if place == at else 0 for place in range(4)], thousandths)
                self.assertEqual((Exact(case).S2_squared, Rounded(case).S2), (490_000, (700, 700)))

    def test_largest(self):
        case = fund([10 ** 11] * 4, 1_000)
        self.assertEqual(Rounded(case).S2, (4 * 10 ** 13, 4 * 10 ** 13))
        self.assertEqual(Rounded(replace(case, shocks=case.shocks | {"equity_correlation": 0})).S2, (2 * 10 ** 13, 2 * 10 ** 13))

    def test_more_correlation_is_never_less(self):
        found = [Rounded(fund(LOSSES, thousandths)).S2 for thousandths in (0, 1, 2, 250, 500, 750, 998, 999, 1_000)]
        self.assertEqual(found, sorted(found))


class WrongReadings(unittest.TestCase):
    """Each gives another S2 than the right one at some correlation by hand, in both workings where it is a reading of both."""

    def test_pairs(self):
        for wrong in (once, one_missed, neighbours_alone, with_themselves):
            with mock.patch.object(reference, "pairs_product_sum", wrong):
                case, square, bracket = fund(LOSSES, 500), *BY_HAND[2][1:]
                self.assertNotEqual(Exact(case).S2_squared, 10 * square, wrong)
                self.assertNotEqual(Rounded(case).S2, bracket, wrong)

    def test_rounding(self):
        for wrong, case in ((tenths_as_cents, fund(LOSSES, 500)), (in_tenths_of_thousandths, fund(LOSSES, 500)),
                            (each_loss_rounded, fund((1, 1, 1, 1), 0, (5, 5, 5, 5))),
                            (squares_rounded, fund((1, 1, 0, 0), 1_000, (5, 5, 0, 0)))):
            right = Rounded(case).S2
            with mock.patch.object(reference, "rounded_S2", wrong):
                self.assertNotEqual(Rounded(case).S2, right, wrong)

    def test_rounded_by_hand(self):
        """Four losses of half a cent: their root is 1 cent, and rounded first it would be 0 to 2. Two that fall together: 1 cent too."""
        self.assertEqual(Rounded(fund((1, 1, 1, 1), 0, (5, 5, 5, 5))).S2, (1, 1))
        self.assertEqual(each_loss_rounded([5] * 4, 0), (0, 2))
        self.assertEqual(Rounded(fund((1, 1, 0, 0), 1_000, (5, 5, 0, 0))).S2, (1, 1))
        self.assertEqual(squares_rounded([5, 5, 0, 0], 1_000), (0, 2))

    def test_plain_sum(self):
        """Whoever does not know the correlation gives 103 euros for each; of a thousand times these losses S is another too."""
        larger = [1_000 * loss for loss in LOSSES]
        for thousandths, _, bracket in BY_HAND[:-1]:
            self.assertNotEqual(bracket, (10_300, 10_300))
            self.assertNotEqual(Rounded(fund(larger, thousandths)).S, Rounded(fund(larger, 1_000)).S)


def older_S2(case):
    """The plain sum of the four losses in tenths of a cent."""
    return sum(case.amounts[name] * case.shocks[f"{name}_fall"] for name in EQUITY)


class OlderForm(unittest.TestCase):
    """At 1,000 S2 is the sum of the four losses, and S is what it was."""

    CASES = [examples.up(), examples.down(), *(examples.random_case(random.Random(seed), 1) for seed in range(15))]

    def setUp(self):
        self.cases = [replace(case, shocks=case.shocks | {"equity_correlation": 1_000}) for case in self.CASES]

    def test_rounded(self):
        for case in self.cases:
            rounded = Rounded(case)
            self.assertEqual(rounded.S2, reference.rounded_once(older_S2(case), 10))
            self.assertEqual(rounded.S, reference.rounded_S([getattr(rounded, f"S{at}") for at in range(1, 7)], case.shocks["correlation"]))

    def test_exact(self):
        for case in self.cases:
            exact, S2 = Exact(case), Fraction(older_S2(case), 10)
            self.assertEqual(exact.S2_squared, S2 ** 2)
            older = (exact.S1 ** 2 + S2 ** 2 + 2 * Fraction(case.shocks["correlation"], 1_000) * exact.S1 * S2
                     + exact.S3 ** 2 + exact.S4 ** 2 + exact.S5 ** 2 + exact.S6_squared)
            self.assertTrue(exact.S_squared >= older and exact.S_squared <= older)
            self.assertEqual(exact.verdict, exact_verdict(exact.A, exact.L, older))

    def test_below(self):
        """No correlation gives a larger S2 or S than 1,000."""
        for case in self.cases:
            other = Rounded(replace(case, shocks=case.shocks | {"equity_correlation": 613}))
            for name in ("S2", "S"):
                self.assertTrue(all(one <= most for one, most in zip(getattr(other, name), getattr(Rounded(case), name))))


class Surds(unittest.TestCase):
    SURD = Surd(Fraction(2), Fraction(2), Fraction(2))  # 2 + 2 x root 2, 4.828427124..; its root is 2.197368226..

    def test_between_fractions(self):
        for x, reached in ((4, True), (5, False), (Fraction("4.828427124"), True), (Fraction("4.828427125"), False), (2, True), (1, True),
                           (0, True), (-7, True)):
            self.assertEqual((self.SURD >= x, self.SURD <= x), (reached, not reached), x)

    def test_its_root(self):
        for x, reached in ((2, True), (3, False), (Fraction("2.197368226"), True), (Fraction("2.197368227"), False), (0, True), (-3, True)):
            self.assertEqual((at_most_root(x, self.SURD), root_at_most(self.SURD, x)), (reached, not reached), x)

    def test_perfect_squares(self):
        """5 + 2 x root 4 is 9, whose root is 3; as near as can be on both sides."""
        surd, little = Surd(Fraction(5), Fraction(2), Fraction(4)), Fraction(1, 10 ** 40)
        self.assertTrue(surd >= 9 and surd <= 9 and at_most_root(3, surd) and root_at_most(surd, 3))
        self.assertFalse(surd >= 9 + little or surd <= 9 - little or at_most_root(3 + little, surd) or root_at_most(surd, 3 - little))
        for plain, factor, radicand in ((9, 0, 7), (9, 3, 0), (0, 3, 9), (Fraction(17, 2), Fraction(1, 2), 1)):
            surd = Surd(*map(Fraction, (plain, factor, radicand)))
            self.assertTrue(surd >= 9 and surd <= 9)
            self.assertFalse(surd >= 9 + little or surd <= 9 - little)

    def test_random(self):
        """By decimals of 60 digits."""
        rng = random.Random(8)
        with localcontext() as context:
            context.prec = 60
            for _ in range(500):
                plain, factor, radicand = (rng.choice([0, rng.randint(0, 10 ** rng.randint(1, 12))]) for _ in range(3))
                surd = Surd(Fraction(plain), Fraction(factor), Fraction(radicand))
                value = plain + factor * Decimal(radicand).sqrt()
                whole = plain + isqrt(factor * factor * radicand)
                for x in (whole - 1, whole, whole + 1, plain - 1, plain):
                    self.assertEqual(surd >= x, value >= x, (surd, x))
                    self.assertEqual(surd <= x, value <= x, (surd, x))

    def test_sides_of_a_border(self):
        """A = L + S with L = 10 and S = 2.197368226..; 105 percent of L is reached."""
        for over, verdict in (("2.197368226", RESERVETEKORT), ("2.197368227", VRIJ_VERMOGEN), ("2.19", RESERVETEKORT),
                              ("2.2", VRIJ_VERMOGEN)):
            self.assertEqual(exact_verdict(10 + Fraction(over), Fraction(10), self.SURD), verdict)
        on_it = exact_verdict(Fraction(13), Fraction(10), Surd(Fraction(5), Fraction(2), Fraction(4)))
        self.assertEqual(on_it, VRIJ_VERMOGEN)


class S(unittest.TestCase):
    """A fund whose S1 is not 0 and whose S2 is a root: S is compared by squaring twice."""

    CASE = fund((300_000, 400_000, 120_000, 84_000), 437, (251, 353, 307, 149),
                up_shift=320, down_shift=180, correlation=401, currency_fall=1)

    def moved(self, cash):
        return replace(self.CASE, amounts=self.CASE.amounts | {"cash": cash})

    def decimal_S(self, exact):
        """S with 60 digits."""
        value = lambda x: Decimal(x.numerator) / Decimal(x.denominator)
        S1, S2 = value(exact.S1), value(exact.S2_squared).sqrt()
        correlation = Decimal(self.CASE.shocks["correlation"]) / 1_000
        squares = [value(exact.S3) ** 2, value(exact.S4) ** 2, value(exact.S5) ** 2, value(exact.S6_squared)]
        return (S1 ** 2 + S2 ** 2 + 2 * correlation * S1 * S2 + sum(squares)).sqrt()

    def test_both_sides(self):
        exact = Exact(self.CASE)
        self.assertGreater(exact.S1, 0)
        self.assertNotEqual(isqrt(exact.S2_squared.numerator) ** 2, exact.S2_squared.numerator)
        with localcontext() as context:
            context.prec = 60
            S = self.decimal_S(exact)
            L, other_assets = Decimal(exact.L.numerator) / Decimal(exact.L.denominator), exact.A - 100 * self.CASE.amounts["cash"]
            needed = int((L + S - int(other_assets)) / 100)
        self.assertEqual(Exact(self.moved(needed)).verdict, RESERVETEKORT)
        self.assertEqual(Exact(self.moved(needed + 1)).verdict, VRIJ_VERMOGEN)
        lower, upper = Rounded(self.CASE).S
        self.assertTrue(lower <= S <= upper)
        self.assertTrue(at_most_root(int(S), exact.S_squared) and root_at_most(exact.S_squared, int(S) + 1))
        self.assertFalse(at_most_root(int(S) + 1, exact.S_squared) or root_at_most(exact.S_squared, int(S)))

    def test_containment(self):
        rng = random.Random(88)
        for _ in range(15):
            case = examples.random_case(rng, 1)
            case = replace(case, shocks=case.shocks | {"equity_correlation": rng.choice([0, 1, 437, 999])})
            rounded = Rounded(case)
            self.assertEqual(reference.containment_and_width(case, rounded=rounded), [])
            self.assertLessEqual(rounded.S2[1] - rounded.S2[0], 1)


class Field(unittest.TestCase):
    """Two bytes, the last ones of a file."""

    def test_bytes(self):
        for case in (examples.apart(437), replace(c1(days=flat(7), rate_bytes=4), shocks=examples.apart(437).shocks)):
            data = encode(case, True, bool(case.bonds), True)
            self.assertEqual((data[0], data[-2:]), (1, b"\x01\xb5"))
            self.assertEqual(read(data), case)
            plain = replace(case, shocks=case.shocks | {"equity_correlation": 1_000})
            self.assertEqual(encode(plain, True, bool(case.bonds), True), b"\0" + data[1:-2])
            self.assertEqual(read(b"\0" + data[1:-2]), plain)
            self.assertEqual(read(data[:-2] + b"\x03\xe8"), plain)  # a file may hold 1,000

    def test_left_out_with_another_value(self):
        with self.assertRaises(ValueError):
            encode(examples.apart(), True, True, True, False)


if __name__ == "__main__":
    unittest.main()
