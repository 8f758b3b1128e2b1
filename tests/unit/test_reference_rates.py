"""The reference of rates in four bytes: the field, its limits, the order of checks, and the working, against numbers worked by hand; and a
file in both forms."""

import random
import unittest
from dataclasses import replace
from fractions import Fraction

from tests.inputs import examples, files
from tests.inputs.examples import c1, flat
from tests.inputs.files import rewritten, rewritten_case
from tests.reference import months, reference, rolling
from tests.reference.reference import (AMOUNTS, SHOCK_LIMITS, Exact, ExactCurve, Rounded, case_of, case_refusal, containment_and_width,
                                       encode, given_of, listing, read, save, shortest)
from tests.unit.reference_shared import C1_LINES, number_of

LEAST, MOST = b"\xff\xfe\x79\x60", b"\x00\x0f\x42\x40"  # -100,000 and 1,000,000
BELOW, ABOVE = b"\xff\xfe\x79\x5f", b"\x00\x0f\x42\x41"  # a unit past each


def four(*rates, **changes):
    """C1's case with one day per rate, that rate at every term, in units of 0.0000001."""
    return c1(days=flat(*rates), rate_bytes=4, **changes)


def by_hand(*days):
    """C1's file with these days in four bytes, each a text of bytes: the bytes are written here, not by encode."""
    front = bytes.fromhex("00f4" + "01" + "000f4240" + "00" * 48 + "000000000010c8e0" + "00" * 8 + "0000" * 12 + "00000064" + "030c" + "01cc")
    return front + bytes([len(days)]) + b"".join(days)


def steep(first, later):
    """A day with one rate at term 1 and another at all later terms."""
    return [first] + [later] * 59


class Bytes(unittest.TestCase):
    def test_c1(self):
        data = by_hand(bytes(240))
        self.assertEqual(len(data), 344)
        self.assertEqual(data, encode(four(0), False, False, True))
        self.assertEqual(read(data), four(0))
        self.assertEqual(reference.rates_part(data), (104, 240))
        self.assertEqual(listing(data), C1_LINES)

    def test_rates(self):
        """Two's complement of four bytes, the high byte first."""
        for four_bytes, rate in ((LEAST, -100_000), (MOST, 1_000_000), (b"\xff\xff\x3c\xb0", -50_000), (b"\x00\x00\x00\x01", 1),
                                 (b"\x00\x00\x01\x00", 256), (b"\x00\x01\x00\x00", 65_536), (b"\xff\xff\xff\xff", -1)):
            self.assertEqual(read(by_hand(four_bytes * 60)).days, flat(rate))
        for number, length, signed in ((0x7FFF, 2, 32_767), (0x8000, 2, -32_768), (0x8000, 4, 32_768), (0xFFFF, 4, 65_535),
                                       (0x7FFFFFFF, 4, (1 << 31) - 1), (0x80000000, 4, -(1 << 31)), (0xFFFFFFFF, 4, -1)):
            self.assertEqual(reference.twos_complement(number, length), signed)

    def test_days_in_order(self):
        data = by_hand(b"\x00\x00\x00\x01" * 60, b"\x00\x00\x00\x02" * 59 + b"\xff\xff\xff\xfd")
        self.assertEqual(read(data).days, [[1] * 60, [2] * 59 + [-3]])
        self.assertEqual(reference.rates_part(data), (104, 480))

    def test_behind_all_other_fields(self):
        """Every field stands: the people come before the days."""
        case = replace(examples.up(), days=examples.random_days(random.Random(1), 3, 100), rate_bytes=4)
        data, two = encode(case, True, True, True), encode(examples.up(), True, True, True)
        self.assertEqual(data[:2], b"\x00\xfd")
        self.assertEqual(data[2:], two[2:4] + two[365:] + data[-721:])
        self.assertEqual(data[-721], 3)
        self.assertEqual(reference.rates_part(data), (len(data) - 720, 720))
        self.assertEqual(read(data), case)

    def test_longest(self):
        most = files.rewritten(encode(files.full_case(random.Random(2)), True, True, True))
        self.assertEqual(len(most), 17_625)
        self.assertEqual(number_of(most), 0)

    def test_round_trip(self):
        rng = random.Random(7)
        for _ in range(100):
            case = examples.random_case(rng, rate_bytes=4)
            present = examples.presence(rng, case)
            data = encode(case, *present)
            self.assertEqual(read(data), case)
            length, behind = 240 * len(case.days), 2 * present[3]
            self.assertEqual(reference.rates_part(data), (len(data) - length - behind, length))


class Refused(unittest.TestCase):
    GOOD = by_hand(bytes(240))

    def test_map(self):
        """Bits 2, 5 and 6 and exactly one of bits 1 and 7; none of bits 9 to 15."""
        for bits, number in ((0x00E4, 1), (0x0066, 1), (0x00E6, 3), (0x0064, 3), (0x00E0, 3), (0x00C4, 3), (0x00A4, 3),
                             (0x01E4, 1), (0x0166, 1), (0x01E6, 3), (0x02E4, 3), (0x03E4, 3),
                             (0x80E4, 3), (0x00FD, 1), (0x01FD, 1), (0x00FF, 3), (0x01FF, 3)):
            self.assertEqual(number_of(bits.to_bytes(2, "big")), number, hex(bits))

    def test_limits_of_a_rate(self):
        for at in (0, 29, 59):
            for four_bytes, number in ((LEAST, 0), (MOST, 0), (BELOW, 5), (ABOVE, 5), (b"\x80\x00\x00\x00", 5), (b"\x7f\xff\xff\xff", 5)):
                # neighbours that keep the growths within their limits
                day = [four_bytes if number == 0 or place == at else bytes(4) for place in range(60)]
                self.assertEqual(number_of(by_hand(b"".join(day))), number, (at, four_bytes))

    def test_count(self):
        front = self.GOOD[:103]
        for n, number in ((0, 4), (1, 1), (70, 1), (71, 4), (255, 4)):
            self.assertEqual(number_of(front + bytes([n])), number)
        self.assertEqual(number_of(front + b"\x46" + bytes(240 * 70)), 0)
        self.assertEqual(number_of(front + b"\x47" + bytes(240 * 71)), 4)

    def test_every_cut(self):
        for data in (self.GOOD, encode(examples.random_case(random.Random(3), 2, 4), True, False, True)):
            for length in range(len(data)):
                self.assertEqual(number_of(data[:length]), 1, length)
            self.assertEqual(number_of(data), 0)
            self.assertEqual(number_of(data + b"\0"), 2)

    def test_refusal_6(self):
        """Term 2: 2 x s(2) - s(1) against -200,000 and 1,200,000."""
        for s1, s2, number in ((0, 600_000, 0), (0, 600_001, 6), (2, 600_001, 0), (1, 600_001, 6), (0, -100_000, 0), (1, -100_000, 6)):
            self.assertEqual(number_of(encode(c1(days=[steep(s1, s2)], rate_bytes=4), False, False, True)), number, (s1, s2))

    def test_refusal_6_by_the_sum_over_days(self):
        """Term 3 of two days: 3 x s(3) - 2 x s(2) against -400,000 and 2,400,000."""
        for s2, s3, number in ((0, 800_000, 0), (0, 800_001, 6), (1, 800_001, 6), (2, 800_001, 0), (50_000, -100_000, 0), (50_001, -100_000, 6)):
            days = [[0, s2 // 2] + [s3 // 2] * 58, [0, s2 - s2 // 2] + [s3 - s3 // 2] * 58]
            self.assertEqual(number_of(encode(c1(days=days, rate_bytes=4), False, False, True)), number, (s2, s3))

    def test_order(self):
        """"each field in bit order", the days last; "then 2; then 6": each number, with all that come later."""
        front = bytes.fromhex("00fd")
        fields = [(9, b"\x13\x89", b"\x13\x88"), (7, b"\x79", None), (8, b"\x01\x05\xf5\xe1\x01", b"\x01\x05\xf5\xe1\x00"), (7, b"\x3d", None),
                  (8, b"\x01\x05\xf5\xe1\x01", b"\x01\x00\x00\x00\x00"), (10, b"\xff" * 64, bytes(64)), (11, b"\xff" * 24, bytes(24)),
                  (12, bytes(8), b"\x00\x00\x00\x01" + bytes(4)), (4, b"\x47", None), (5, b"\x01" + ABOVE * 60, None)]
        wrong_days = b"\x01" + ABOVE * 60 + b"\0"
        for number, wrong, right in fields:
            later = b"".join(bad for _, bad, _ in fields[[bad for _, bad, _ in fields].index(wrong) + 1:]) + wrong_days
            self.assertEqual(number_of(front + wrong + later), number)
            front += right or b""
        days = b"\x01" + b"".join(rate.to_bytes(4, "big") for rate in steep(0, 600_001))
        self.assertEqual(number_of(front + days + b"\0"), 2)
        self.assertEqual(number_of(front + days), 6)
        self.assertEqual(number_of(front + b"\x01" + bytes(240)), 0)

    def test_length_before_numbers(self):
        self.assertEqual(number_of(by_hand(ABOVE * 60)[:-1]), 1)
        self.assertEqual(number_of(self.GOOD[:103] + b"\x00"), 4)
        self.assertEqual(number_of(self.GOOD[:103]), 1)


class Working(unittest.TestCase):
    def test_exact(self):
        """C3, C5, C6 and C7 with rates times 100, and a mean of one and a half units."""
        self.assertEqual(ExactCurve(four(-50_000)).factor(1), Fraction(200, 199))
        self.assertEqual(ExactCurve(four(10_000, 10_100)).factor(1), Fraction(200_000, 200_201))
        self.assertEqual(ExactCurve(four(0)).factor(21), Fraction(250_000, 250_903))
        self.assertEqual(ExactCurve(four(500_000)).adjusted_growth(21), Fraction(1_049_312, 1_000_000))
        self.assertEqual(ExactCurve(four(1, 2)).factor(1), Fraction(20_000_000, 20_000_003))

    def test_seventh_decimal(self):
        """A rate of 0.0000001: 10^12 / 1.0000001 is 999,999,900,000.01, and a million euros are 99,999,990.000001 cents."""
        rounded = Rounded(four(1))
        self.assertEqual(rounded.factors[1], (999_999_900_000, 999_999_900_001))
        self.assertEqual(rounded.L, (99_999_990, 99_999_991))
        self.assertEqual(Exact(four(1)).L, Fraction(10 ** 15, 10_000_001))
        self.assertEqual(rounded.zero_rates[1], (0, 1))
        self.assertEqual(Rounded(four(-1)).zero_rates[1], (-1, 0))
        self.assertEqual(Rounded(four(-1)).factors[1], (1_000_000_100_000, 1_000_000_100_001))

    def test_points(self):
        """N is 10,000,000 x n, and a shift adds or takes 100 x n x shift."""
        case = four(1, 2)
        self.assertEqual(case.per_step, 200)
        for shift, P in ((0, 20_000_003), (1_000, 20_200_003), (-500, 19_900_003), (1, 20_000_203)):
            N, points = reference.points(case, shift)
            self.assertEqual((N, points[1], points[60]), (20_000_000, P, P))
            self.assertEqual(ExactCurve(case, shift).factor(1), Fraction(20_000_000, P))

    def test_shift_by_hand(self):
        """A bond flow of 1,000,000 at term 1, flat 0, no pensions: with an up shift of 0.01 it is worth 1,000,000 over 1.01."""
        case = four(0, pension=[0], bonds=[1_000_000], shocks=c1().shocks | {"up_shift": 1_000})
        self.assertEqual(Rounded(case).Bs["up"], (99_009_900, 99_009_901))
        self.assertEqual(Rounded(case).S1, (990_099, 990_100))

    def test_steps_that_are_kept(self):
        """UFR and credit spread count steps of 0.00001: from term 61 on a factor is the one before over 1.042, and the spread of 1,000
        is one percent."""
        factors = Rounded(four(123_457)).factors
        self.assertEqual(factors[61][0], factors[60][0] * 1_000 // 1_042)
        case = four(0, amounts=c1().amounts | {"credit": 1_000_000}, shocks=c1().shocks | {"spread": 1_000, "spread_rise": 1_000, "duration": 10})
        self.assertEqual(Rounded(case).S5, (1_000_000, 1_000_000))

    def test_containment_and_width(self):
        rng = random.Random(100)
        cases = [examples.random_case(rng, rng.choice([1, 2, 3]), 4) for _ in range(25)]
        cases += [examples.random_case(rng, 70, 4), *(rewritten_case(case) for case in (examples.up(), examples.down(), examples.deepest()))]
        for case in cases:
            self.assertEqual(containment_and_width(case), [], case)

    def test_ends_of_the_limits(self):
        for rate, ufr in ((-100_000, 0), (-100_000, 5_000), (1_000_000, 0), (1_000_000, 5_000)):
            for n in (1, 70):
                case = replace(examples.up(), ufr=ufr, days=flat(rate) * n, pension=[10 ** 8] * 120, bonds=[10 ** 8] * 60, rate_bytes=4,
                               shocks=dict(SHOCK_LIMITS))
                self.assertEqual(containment_and_width(case), [])

    def test_containment_and_width_of_others(self):
        """The brackets of the rates rounded to five decimals are not those of the rates themselves."""
        case = four(149, pension=[10 ** 8] * 20)
        rounded_off = Rounded(c1(days=flat(1), pension=[10 ** 8] * 20))
        self.assertIn("exact factor 1 lies in its bracket", containment_and_width(case, rounded=rounded_off))
        self.assertIn("exact L lies in its bracket", containment_and_width(case, rounded=rounded_off))


class BothForms(unittest.TestCase):
    """"An accepted file with bit 1, rewritten to bit 7 with every rate times 100, prints the same listing as the old file.\""""

    def test_same_answers(self):
        rng = random.Random(71)
        cases = [examples.bent(), examples.up(), examples.down(), examples.long(), examples.deepest(), examples.apart(), *files.ends(),
                 *(examples.random_case(rng) for _ in range(30))]
        for case in cases:
            present = examples.presence(rng, case)
            data = encode(case, *present)
            self.assertEqual(rewritten(data), encode(rewritten_case(case), *present))
            self.assertEqual(read(rewritten(data)), rewritten_case(case))
            self.assertEqual(listing(rewritten(data)), listing(data))
            old, new = Rounded(case), Rounded(rewritten_case(case))
            self.assertEqual(reference.buffers(new), reference.buffers(old))
            self.assertEqual((new.Bs, new.falls, new.WL, new.WB), (old.Bs, old.falls, old.WL, old.WB))

    def test_same_exact_figures(self):
        case = examples.apart()
        old, new = Exact(case), Exact(rewritten_case(case))
        for name in (*reference.EXACT, "verdict"):
            self.assertEqual(getattr(new, name), getattr(old, name), name)

    def test_part(self):
        for days in (1, 3):
            data = files.all_fields(days)
            (offset, length), (new_offset, new_length) = reference.rates_part(data), reference.rates_part(rewritten(data))
            self.assertEqual((offset, length, new_length), (5, 120 * days, 240 * days))
            self.assertEqual(new_offset, len(data) - 120 * days - 2)  # the equity correlation comes behind

    def test_same_refusal(self):
        """Of a case with one fault."""
        good = examples.up()
        wrong = [{"ufr": 5_001}, {"days": []}, {"days": flat(*[0] * 71)}, {"days": flat(-1_001)}, {"days": flat(10_001)}, {"pension": []},
                 {"pension": [10 ** 8 + 1]}, {"bonds": [0] * 61}, {"bonds": [10 ** 8 + 1]}, {"amounts": good.amounts | {"cash": 10 ** 11 + 1}},
                 {"shocks": good.shocks | {"duration": 501}}, {"shocks": good.shocks | {"equity_correlation": 1_001}}, {"heads": 0},
                 {"days": [[0] + [6_001] * 59]}, {"days": [[1] + [-1_000] * 59]}]
        for changes in wrong:
            data = encode(replace(good, **changes), True, True, True)
            self.assertNotEqual(number_of(data), 0)
            self.assertEqual(number_of(rewritten(data)), number_of(data), changes)


class Saving(unittest.TestCase):
    GOOD = given_of(rewritten_case(examples.up()))
    STEEP = steep(0, 600_001)

    # (refusal, changed fields), in the order of checks of a case with four bytes
    FAULTS = [
        (9, {"ufr": 5_001}), (7, {"pension": [0] * 121}), (8, {"pension": [100_000_001]}), (7, {"bonds": [0] * 61}),
        (8, {"bonds": [100_000_001]}), (10, {"amounts": GOOD.amounts | {"currency": 10 ** 11 + 1}}),
        (11, {"shocks": GOOD.shocks | {"duration": 501}}), (12, {"heads": 0}), (4, {"rates": [0] * 61}), (5, {"rates": [1_000_001] * 60}),
        (11, {"shocks": GOOD.shocks | {"equity_correlation": 1_001}}), (6, {"rates": STEEP}),
    ]

    def check(self, number, **changes):
        self.assertEqual(case_refusal(replace(self.GOOD, **changes)), number, str(changes)[:80])

    def test_good(self):
        self.check(0)
        self.assertEqual(case_of(self.GOOD), rewritten_case(examples.up()))
        self.assertEqual(shortest(self.GOOD), rewritten(shortest(given_of(examples.up()))))

    def test_other_numbers_of_bytes(self):
        """3 ahead of all else, whatever else is wrong."""
        for rate_bytes in (0, 1, 3, 5, 8, 100, 258, (1 << 32) + 2, (1 << 32) + 4, (1 << 64) - 1):
            self.check(3, rate_bytes=rate_bytes)
            for number, changes in self.FAULTS:
                self.check(3, rate_bytes=rate_bytes, **changes)
            self.assertEqual(save(replace(self.GOOD, rate_bytes=rate_bytes), b"??"), (3, 0, b"??"))

    def test_order(self):
        for i, (number, first) in enumerate(self.FAULTS):
            self.check(number, **first)
            for _, second in self.FAULTS[i + 1:]:
                if not first.keys() & second.keys():
                    self.check(number, **second, **first)
            self.assertEqual(save(replace(self.GOOD, **first), b""), (number, 0, b""))  # before 14

    def test_faults_of_the_rates(self):
        self.check(4, rates=[1_000_001] * 61)
        self.check(4, rates=self.STEEP * 71)
        self.check(5, rates=self.STEEP + [1_000_001] * 60)

    def test_by_its_own_step(self):
        for rate, two, four_bytes in ((10_000, 0, 0), (10_001, 5, 0), (-1_001, 5, 0), (1_000_000, 5, 0), (1_000_001, 5, 5), (-100_000, 5, 0),
                                      (-100_001, 5, 5), (-(1 << 31), 5, 5), ((1 << 31) - 1, 5, 5)):
            self.check(two, rates=[rate] * 60, rate_bytes=2)
            self.check(four_bytes, rates=[rate] * 60, rate_bytes=4)
        self.check(6, rates=steep(0, 6_001), rate_bytes=2)
        self.check(0, rates=steep(0, 6_001), rate_bytes=4)

    def test_rooms(self):
        data = shortest(self.GOOD)
        for room in (0, 1, 240, len(data) - 1):
            self.assertEqual(save(self.GOOD, b"?" * room), (14, 0, b"?" * room))
        for room in (len(data), len(data) + 3):
            self.assertEqual(save(self.GOOD, b"?" * room), (0, len(data), data.ljust(room, b"?")))

    def test_left_out(self):
        for changes, bits in (({}, 0xFD), ({"ufr": 4_200}, 0xFC), ({"bonds": []}, 0xF5), ({"amounts": dict.fromkeys(AMOUNTS, 0)}, 0xED)):
            given = replace(self.GOOD, **changes)
            self.assertEqual(shortest(given)[:2], bytes([0, bits]))
            self.assertEqual(given_of(read(shortest(given))), given)

    def test_different_days_fields(self):
        """"cases with different days fields count as different": also where every rate is 0, or the numbers are the same."""
        for rates in ([0] * 60, [100] * 60, list(range(60))):
            two, four_bytes = (replace(self.GOOD, rates=rates, rate_bytes=rate_bytes) for rate_bytes in (2, 4))
            self.assertEqual((case_refusal(two), case_refusal(four_bytes)), (0, 0))
            self.assertNotEqual(two, four_bytes)
            self.assertNotEqual(case_of(two), case_of(four_bytes))
            self.assertNotEqual(shortest(two), shortest(four_bytes))
            self.assertEqual(read(shortest(four_bytes)), case_of(four_bytes))


class InAWindow(unittest.TestCase):
    """"The rolling window stays with two-byte days.\""""

    WINDOW = rolling.placed(flat(150, 150, 300), 68, [-5] * rolling.RATES)
    BUFFERS = list(range(243)), list(range(1_000, 1_241))

    def value(self, given, window=WINDOW):
        return rolling.value(window, given, *map(list, self.BUFFERS))

    def test_days_of_the_window(self):
        """A mean of 200 steps, whatever the bytes of the case's own rates."""
        old, new = (self.value(given_of(case)) for case in (c1(), four(7)))
        self.assertEqual((new.refusal, new.factors, new.rates), (0, old.factors, old.rates))
        self.assertEqual(new.rounded.L, (99_800_399, 99_800_400))  # 1,000,000 euros over 1.002

    def test_own_days(self):
        """Checked by their own step."""
        for rates, number in (([1_000_000] * 60, 0), ([1_000_001] * 60, 5), ([-100_000] * 60, 0), ([-100_001] * 60, 5), (steep(0, 600_000), 0),
                              (steep(0, 600_001), 6), (steep(0, 6_001), 0), ([0] * 61, 4)):
            self.assertEqual(self.value(replace(given_of(four(0)), rates=rates)).refusal, number, rates[:2])

    def test_window_of_its_own_step(self):
        """The window's days are no matter of the case's step."""
        given = given_of(four(0))
        self.assertEqual(self.value(given, rolling.placed([steep(0, 6_001)], 0, [0] * rolling.RATES)).refusal, 6)
        self.assertEqual(rolling.add(self.WINDOW, [10_001] * 60).refusal, 5)

    def test_order(self):
        """27, 13, 3, then the case's other numbers."""
        given = replace(given_of(four(0)), rate_bytes=3, ufr=5_001)
        wrong = self.WINDOW._replace(sums=[0] * 60)
        self.assertEqual(rolling.value(wrong, given, [1] * 239, [2] * 240).refusal, 27)
        self.assertEqual(rolling.value(self.WINDOW, given, [1] * 239, [2] * 240).refusal, 13)
        self.assertEqual(self.value(given).refusal, 3)
        self.assertEqual(self.value(given, rolling.EMPTY).refusal, 3)
        self.assertEqual(self.value(replace(given, rate_bytes=4)).refusal, 9)


class WithMonths(unittest.TestCase):
    def test_ufr_field(self):
        """Behind the map, whichever days field: with the field and without."""
        history = b"\x0c\x1c" * 120  # 3,100 each month
        case = replace(four(123_457), pension=[0] * 20 + [1_000_000])
        without, of_its_own = encode(case, False, False, True), encode(replace(case, ufr=1_000), True, False, True)
        named = encode(replace(case, ufr=3_100), True, False, True)
        for file in (without, of_its_own):
            self.assertEqual(months.with_ufr_field(file, 3_100), named)
            self.assertEqual(months.listing(file, history, 5), listing(named))
        self.assertNotEqual(listing(named), listing(without))

    def test_order(self):
        """The file's own numbers first, those of the days field too."""
        self.assertEqual(months.refusal(by_hand(ABOVE * 60), b"", 120, 240, 240), 5)
        self.assertEqual(months.refusal(by_hand(bytes(240)), b"", 120, 240, 240), 17)


if __name__ == "__main__":
    unittest.main()
