"""Tests of the reference: the saving of a case."""

import random
import unittest
from dataclasses import replace

from tests.inputs import examples, files, host_cases, to_save
from tests.inputs.examples import c1
from tests.reference.reference import AMOUNTS, SHOCK_LIMITS, SHOCKS, case_of, case_refusal, encode, given_of, read, save, shortest
from tests.unit.reference_shared import file_of


class Saving(unittest.TestCase):
    """A case with every field, n = 3, m = 3, k = 5, is changed as a host may hand it in."""

    GOOD = given_of(examples.up())
    STEEP = [0] + [6_001] * 59

    # (refusal, changed fields), in the order of checks
    FAULTS = [
        (9, {"ufr": 5_001}), (4, {"rates": [0] * 61}), (5, {"rates": [10_001] * 60}), (7, {"pension": [0] * 121}),
        (8, {"pension": [100_000_001]}), (7, {"bonds": [0] * 61}), (8, {"bonds": [100_000_001]}),
        (10, {"amounts": GOOD.amounts | {"currency": 10 ** 11 + 1}}), (11, {"shocks": GOOD.shocks | {"duration": 501}}), (12, {"heads": 0}),
        (11, {"shocks": GOOD.shocks | {"equity_correlation": 1_001}}), (6, {"rates": STEEP}),
    ]

    def check(self, number, **changes):
        self.assertEqual(case_refusal(replace(self.GOOD, **changes)), number, str(changes)[:80])

    def test_good(self):
        self.check(0)
        self.assertEqual(case_of(self.GOOD), examples.up())
        self.assertEqual(shortest(self.GOOD), encode(examples.up(), True, True, True))

    def test_c1(self):
        self.assertEqual(shortest(given_of(c1())), file_of(c1()))
        # by hand: a map of 0x0066, and no amounts
        data = bytes.fromhex("0066" + "01" + "0000" * 60 + "01" + "000f4240" + "0000" * 12 + "00000064" + "030c" + "01cc")
        self.assertEqual(shortest(given_of(c1(amounts=dict.fromkeys(AMOUNTS, 0)))), data)

    def test_limits(self):
        for name, low, high, number in (("ufr", 0, 5_000, 9), ("heads", 1, 1_000_000, 12), ("pension_age", 0, 1_200, 12),
                                        ("mean_age", 0, 1_200, 12)):
            self.check(0, **{name: low})
            self.check(0, **{name: high})
            for bad in (high + 1, 2 ** 16 + high, 2 ** 32, 2 ** 64 - 1):
                self.check(number, **{name: bad})
        self.check(12, heads=0)
        for name in AMOUNTS:
            for amount, number in ((0, 0), (10 ** 11, 0), (10 ** 11 + 1, 10), (2 ** 64 - 1, 10)):
                self.check(number, amounts=self.GOOD.amounts | {name: amount})
        for name in SHOCKS:
            for shock, number in ((0, 0), (SHOCK_LIMITS[name], 0), (SHOCK_LIMITS[name] + 1, 11), (2 ** 16, 11), (2 ** 64 - 1, 11)):
                self.check(number, shocks=self.GOOD.shocks | {name: shock})
        for name in ("pension", "bonds"):
            for flow, number in ((0, 0), (10 ** 8, 0), (10 ** 8 + 1, 8), (2 ** 32, 8), (2 ** 64 - 1, 8)):
                self.check(number, **{name: [5, flow, 6]})

    def test_rates(self):
        for rate, number in ((-1_000, 0), (10_000, 0), (-1_001, 5), (10_001, 5), (2 ** 16, 5), (-2 ** 31, 5), (2 ** 31 - 1, 5)):
            self.check(number, rates=[rate] * 120)
        for place in (0, 59, 60, 119):
            rates = [0] * 120
            rates[place] = 10_001
            self.check(5, rates=rates)

    def test_lengths(self):
        for count, number in ((0, 4), (1, 4), (59, 4), (60, 0), (61, 4), (120, 0), (4_199, 4), (4_200, 0), (4_201, 4), (4_260, 4),
                              (15_420, 4)):
            self.check(number, rates=[7] * count)
        for count, number in ((0, 7), (1, 0), (120, 0), (121, 7), (256, 7), (257, 7)):
            self.check(number, pension=[7] * count)
        for count, number in ((0, 0), (1, 0), (60, 0), (61, 7), (256, 7), (257, 7)):
            self.check(number, bonds=[7] * count)

    def test_refusal_6(self):
        self.check(0, rates=[0] + [6_000] * 59)
        self.check(6, rates=self.STEEP)
        # by the sum over the days: one day makes up for the other
        self.check(0, rates=self.STEEP + [0] * 60)
        self.check(6, rates=self.STEEP + [0] + [6_000] * 59)

    def test_earlier_fault_wins(self):
        for i, (number, first) in enumerate(self.FAULTS):
            self.check(number, **first)
            for later, second in self.FAULTS[i + 1:]:
                if not first.keys() & second.keys():  # faults of one field: test_faults_of_one_field
                    self.check(number, **second, **first)
        self.assertEqual({number for number, _ in self.FAULTS}, set(range(4, 13)))

    def test_faults_of_one_field(self):
        self.check(4, rates=[10_001] * 61)
        self.check(4, rates=[10_001] * 4_260)
        self.check(4, rates=self.STEEP * 71)
        self.check(5, rates=self.STEEP + [10_001] * 60)
        self.check(7, pension=[100_000_001] * 121)
        self.check(7, bonds=[100_000_001] * 61)

    def test_left_out(self):
        no_amounts = dict.fromkeys(AMOUNTS, 0)
        longest = len(shortest(self.GOOD))
        ufr, bonds, amounts = {"ufr": 4_200}, {"bonds": []}, {"amounts": no_amounts}
        for changes, bits, shorter in (({}, 0x7F, 0), (ufr, 0x7E, 2), (bonds, 0x77, 21), (amounts, 0x6F, 64), (ufr | bonds, 0x76, 23),
                                       (ufr | amounts, 0x6E, 66), (bonds | amounts, 0x67, 85), (ufr | bonds | amounts, 0x66, 87)):
            given = replace(self.GOOD, **changes)
            data = shortest(given)
            self.assertEqual((data[:2], len(data)), (bytes([0, bits]), longest - shorter))
            self.assertEqual(read(data), case_of(given))

    def test_not_left_out(self):
        for changes in [{"ufr": 0}, {"ufr": 4_199}, {"ufr": 4_201}, {"bonds": [0]}, {"bonds": [0, 0]}] + [
                {"amounts": dict.fromkeys(AMOUNTS, 0) | {name: 1}} for name in AMOUNTS]:
            data = shortest(replace(self.GOOD, **changes))
            self.assertEqual(data[1], 0x7F)
            self.assertEqual(read(data), case_of(replace(self.GOOD, **changes)))

    def test_rooms(self):
        data = shortest(self.GOOD)
        for room in range(len(data) + 3):
            held = bytes(at % 251 for at in range(room))
            if room < len(data):
                self.assertEqual(save(self.GOOD, held), (14, 0, held))
            else:
                self.assertEqual(save(self.GOOD, held), (0, len(data), data + held[len(data):]))

    def test_refused(self):
        for number, changes in self.FAULTS:
            for room in (0, 1, 494, 495, 600):  # the case's own number comes before 14
                self.assertEqual(save(replace(self.GOOD, **changes), b"?" * room), (number, 0, b"?" * room))

    def test_round_trip(self):
        rng = random.Random(15)
        pool = files.day_pool(rng, 20)
        for _ in range(150):
            given = host_cases.random_case(rng, pool)
            self.assertEqual(case_refusal(given), 0)
            data = shortest(given)
            self.assertEqual(read(data), case_of(given))
            self.assertEqual(given_of(read(data)), given)

    def test_no_file_of_the_case_is_shorter(self):
        rng = random.Random(16)
        for _ in range(50):
            case = examples.random_case(rng)
            for present in {examples.presence(rng, case) for _ in range(8)}:
                data = encode(case, *present)
                self.assertEqual(read(data), case)
                self.assertLessEqual(len(shortest(given_of(case))), len(data))

    def test_same_bytes_only_of_the_same_case(self):
        given = replace(self.GOOD, pension=[0, 0], bonds=[0, 0])
        others = [given, replace(given, rates=given.rates[60:] + given.rates[:60]), replace(given, rates=given.rates + given.rates[:60])]
        others += [replace(given, pension=[0] * m, bonds=[0] * k) for m in range(1, 5) for k in range(5) if (m, k) != (2, 2)]
        others += [one for one in to_save.one_number(given) if case_refusal(one) == 0 and one != given]
        for one in others:
            self.assertEqual([other == one for other in others], [shortest(other) == shortest(one) for other in others])


if __name__ == "__main__":
    unittest.main()
