"""The reference of a UFR from months: the mean and its rounding, the refusals and their order, and the valuation, against numbers worked by
hand."""

import random
import unittest

from tests.inputs import examples
from tests.reference import months, reference
from tests.reference.months import (Ufr, months_of, oldest_first, rounded_mean, rounded_ufr, sum_from_first_byte, sum_from_oldest, ufr_of,
                                    with_ufr_field)
from tests.reference.reference import Rounded, encode

LARGEST = (1 << 64) - 1
FLAT = b"\x0c\x1c" * 120  # 3,100 each month
BELOW, ABOVE = b"\xfc\x17", b"\x27\x11"  # -1,001 and 10,001, each a step past its limit


def put(history, place, two_bytes):
    """The history with another month at a place."""
    return history[:2 * place] + two_bytes + history[2 * place + 2:]


class Months(unittest.TestCase):
    def test_bytes(self):
        """Two's complement, the high byte first."""
        for two_bytes, month in ((b"\xfe\x0c", -500), (b"\xfc\x18", -1_000), (b"\xfc\x17", -1_001), (b"\x27\x10", 10_000),
                                 (b"\x27\x11", 10_001), (b"\x00\x00", 0), (b"\x00\x01", 1), (b"\x01\x00", 256), (b"\xff\xff", -1),
                                 (b"\x7f\xff", 32_767), (b"\x80\x00", -32_768)):
            self.assertEqual(months_of(two_bytes * 120), [month] * 120)
        self.assertEqual(months_of(b"\x00\x01\xff\xfe\x00\x03"), [1, -2, 3])

    def test_ring(self):
        self.assertEqual(oldest_first(0, [5, 6, 7]), [5, 6, 7])
        self.assertEqual(oldest_first(1, [5, 6, 7]), [6, 7, 5])
        self.assertEqual(oldest_first(2, [5, 6, 7]), [7, 5, 6])

    def test_sums(self):
        """From the first byte on, and from the oldest month: the same at every start."""
        rising = b"".join(month.to_bytes(2, "big") for month in range(1, 121))
        self.assertEqual(oldest_first(119, months_of(rising)), [120, *range(1, 120)])
        for start in range(120):
            self.assertEqual(sum_from_oldest(rising, start), 7_260)  # 120 x 121 / 2
        history = random.Random(5).randbytes(240)
        for start in range(120):
            self.assertEqual(sum_from_oldest(history, start), sum_from_first_byte(history))


class Rounding(unittest.TestCase):
    def test_halves_upward(self):
        """The sum of 120 months; 120 x 50 is 6,000."""
        for total, ufr in ((0, 0), (5_999, 0), (6_000, 100), (6_001, 100), (12_000, 100), (17_999, 100), (18_000, 200), (-1, 0),
                           (-5_999, 0), (-6_000, 0), (-6_001, -100), (-12_000, -100), (-17_999, -100), (-18_000, -100), (-18_001, -200)):
            self.assertEqual(rounded_mean(total), ufr, total)

    def test_ends(self):
        """5,050 less a 120th is 605,999 of them; and the ends of what months within their limits can give."""
        for total, ufr in ((593_999, 4_900), (594_000, 5_000), (605_999, 5_000), (606_000, 5_100), (-120_000, -1_000), (1_200_000, 10_000)):
            self.assertEqual(rounded_mean(total), ufr, total)

    def test_history(self):
        self.assertEqual(rounded_ufr(FLAT), 3_100)
        self.assertEqual(rounded_ufr(b"\x0c\x4d" * 120), 3_100)  # 3,149
        self.assertEqual(rounded_ufr(b"\x0c\x4e" * 120), 3_200)  # 3,150
        self.assertEqual(rounded_ufr(put(b"\x0c\x4e" * 120, 119, b"\x0c\x4d")), 3_100)  # 3,150 less a 120th


class Found(unittest.TestCase):
    def test_found(self):
        self.assertEqual(ufr_of(FLAT, 0), Ufr(0, 3_100))
        self.assertEqual(ufr_of(bytes(240), 119), Ufr(0, 0))

    def test_lower_border(self):
        """-50 gives 0; a 120th less gives -100; and 50 gives 100."""
        self.assertEqual(ufr_of(b"\xff\xce" * 120, 0), Ufr(0, 0))
        self.assertEqual(ufr_of(put(b"\xff\xce" * 120, 60, b"\xff\xcd"), 0), Ufr(19, 0))
        self.assertEqual(ufr_of(b"\x00\x32" * 120, 0), Ufr(0, 100))
        self.assertEqual(ufr_of(put(b"\x00\x32" * 120, 60, b"\x00\x31"), 0), Ufr(0, 0))

    def test_upper_border(self):
        """5,049 and 119 120ths gives 5,000; 5,050 gives 5,100."""
        self.assertEqual(ufr_of(put(b"\x13\xba" * 120, 0, b"\x13\xb9"), 0), Ufr(0, 5_000))
        self.assertEqual(ufr_of(b"\x13\xba" * 120, 0), Ufr(19, 0))

    def test_length(self):
        for length, number in ((0, 17), (2, 17), (238, 17), (239, 17), (240, 0), (241, 17), (242, 17), (480, 17)):
            self.assertEqual(ufr_of((FLAT * 2)[:length], 0).refusal, number, length)

    def test_start(self):
        for start, number in ((0, 0), (1, 0), (119, 0), (120, 17), (121, 17), (239, 17), (256, 17), (1 << 32, 17), (LARGEST, 17)):
            self.assertEqual(ufr_of(FLAT, start), Ufr(number, 0 if number else 3_100), start)

    def test_month(self):
        """One month at and past each limit, in every place."""
        for place in range(120):
            for two_bytes, number in ((b"\xfc\x18", 0), (BELOW, 18), (b"\x27\x10", 0), (ABOVE, 18), (b"\x80\x00", 18), (b"\x7f\xff", 18)):
                self.assertEqual(ufr_of(put(FLAT, place, two_bytes), 7).refusal, number)

    def test_limits(self):
        """All months at one limit are no months out of limits, but their mean is no UFR."""
        self.assertEqual(ufr_of(b"\xfc\x18" * 120, 0).refusal, 19)
        self.assertEqual(ufr_of(b"\x27\x10" * 120, 0).refusal, 19)

    def test_order(self):
        """17, 18, 19: each with all that come later."""
        self.assertEqual(ufr_of(ABOVE * 119, 0).refusal, 17)
        self.assertEqual(ufr_of(ABOVE * 120, 120).refusal, 17)
        self.assertEqual(ufr_of(b"\xff\xcd" * 120, 120).refusal, 17)
        self.assertEqual(ufr_of(ABOVE * 120, 119).refusal, 18)
        self.assertEqual(ufr_of(put(b"\xff\xcd" * 120, 119, BELOW), 0).refusal, 18)
        self.assertEqual(ufr_of(b"\xff\xcd" * 120, 0).refusal, 19)


# Pensions at terms 1 and 61: the UFR decides what the second is worth.
CASE = examples.c1(days=examples.flat(200), pension=[1_000_000] + [0] * 59 + [1_000_000])
WITHOUT, WITH = encode(CASE, False, False, True), encode(CASE, True, False, True)


class NamedFile(unittest.TestCase):
    def test_inserted(self):
        self.assertEqual(with_ufr_field(b"\x00\x66\x01\xaa\xbb", 3_100), b"\x00\x67\x0c\x1c\x01\xaa\xbb")

    def test_replaced(self):
        self.assertEqual(with_ufr_field(b"\x00\x7f\x10\x68\x01\xaa\xbb", 3_100), b"\x00\x7f\x0c\x1c\x01\xaa\xbb")

    def test_default_stays_there(self):
        """4,200 is written as any other UFR is."""
        self.assertEqual(with_ufr_field(WITHOUT, 4_200), WITH)
        self.assertEqual(with_ufr_field(WITH, 4_200), WITH)


class Valued(unittest.TestCase):
    FACTORS, ZERO_RATES = list(range(243)), list(range(1_000, 1_241))

    def value(self, file, history=FLAT, start=0, factors=FACTORS, rates=ZERO_RATES):
        return months.value(file, history, start, list(factors), list(rates))

    def refused(self, number, *arguments, factors=FACTORS, rates=ZERO_RATES):
        self.assertEqual(self.value(*arguments, factors=factors, rates=rates), (number, None, factors, rates))

    def test_used_as_the_field(self):
        """The figures of 3,100, and not those of the file's own 4,200, with the field and without."""
        found, own = (Rounded(examples.c1(ufr=ufr, days=CASE.days, pension=CASE.pension)) for ufr in (3_100, 4_200))
        self.assertNotEqual(found.L, own.L)
        for file in (WITHOUT, WITH):
            valued = self.value(file)
            rounded = valued.rounded
            self.assertEqual((valued.refusal, rounded.L, rounded.S, rounded.verdict), (0, found.L, found.S, found.verdict))
            self.assertEqual(valued.factors, [end for bracket in found.factors[1:] for end in bracket] + [240, 241, 242])
            self.assertEqual(valued.rates, [end for bracket in found.zero_rates[1:] for end in bracket] + [1_240])

    def test_growth_of_the_ufr(self):
        """From term 61 on each factor is the one before over 1.031."""
        factors = self.value(WITH).factors
        self.assertEqual(factors[120], factors[118] * 1_000 // 1_031)

    def test_start_without_influence(self):
        history = put(FLAT, 3, b"\x0f\xa0")
        first = self.value(WITH, history, 0)
        for start in (1, 60, 119):
            self.assertEqual(self.value(WITH, history, start), first)

    def test_own_field_is_checked(self):
        """9 for the file's own UFR, though another would take its place."""
        high = WITH[:2] + b"\x13\x89" + WITH[4:]  # 5,001
        self.refused(9, high)
        self.assertEqual(self.value(WITH[:2] + b"\x13\x88" + WITH[4:]).refusal, 0)

    def test_order(self):
        """13; the file's own numbers, 2 and 6 included; 17, 18, 19: each with all that come later."""
        all_bad = ABOVE * 119
        steep = encode(examples.c1(days=[[0] + [6_001] * 59]), False, False, True)
        for factors, rates in (([1] * 239, [2] * 240), ([1] * 240, [2] * 239), ([], [])):
            self.refused(13, b"", all_bad, 120, factors=factors, rates=rates)
            self.refused(13, WITH, all_bad, 120, factors=factors, rates=rates)
        for number, file in ((1, b""), (3, b"\x00\x00"), (9, b"\x00\x67\xff\xff"), (2, WITH + b"\0"), (6, steep)):
            for history, start in ((all_bad, 120), (FLAT, 120), (ABOVE * 120, 0), (b"\xff\xcd" * 120, 0), (FLAT, 0)):
                self.refused(number, file, history, start)
        for file in (WITH, WITHOUT):
            self.refused(17, file, all_bad, 0)
            self.refused(17, file, ABOVE * 120, 120)
            self.refused(18, file, ABOVE * 120, 0)
            self.refused(19, file, b"\xff\xcd" * 120, 0)

    def test_listing(self):
        """That of the file with the UFR in its field, or R and the number."""
        named = months.with_ufr_field(WITHOUT, months.rounded_ufr(FLAT))
        self.assertEqual(months.listing(WITHOUT, FLAT, 5), reference.listing(named))
        self.assertNotEqual(months.listing(WITHOUT, FLAT, 5), reference.listing(WITHOUT))
        self.assertEqual(months.listing(WITHOUT, FLAT, 120), b"R 17\n")

    def test_refusal_by_lengths(self):
        self.assertEqual(months.refusal(WITH, FLAT, 0, 240, 240), 0)
        self.assertEqual(months.refusal(WITH, FLAT, 120, 240, 240), 17)
        self.assertEqual(months.refusal(WITH, FLAT, 120, 239, 240), 13)


if __name__ == "__main__":
    unittest.main()
