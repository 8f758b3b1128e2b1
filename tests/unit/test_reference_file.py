"""Tests of the reference: the layout of a case file, its refusals and their order, and the lent buffers."""

import os
import random
import subprocess
import sys
import unittest
from collections import Counter
from dataclasses import replace
from unittest import mock

from tests import ROOT
from tests.inputs import examples
from tests.inputs.examples import c1, flat
from tests.reference import reference
from tests.reference.reference import AMOUNTS, SHOCK_LIMITS, SHOCKS, Refusal, Rounded, encode, fill, listing, read
from tests.unit.reference_shared import C1_LINES, DAYS, END, FAULTS, FULL_FILE, file_of, number_of

DAY_60 = DAYS + 1 + 2 * 59  # term 60 of the first day


class Reading(unittest.TestCase):
    """A file with every field, n = 3, m = 3, k = 5, is spoiled at known places."""

    def spoiled(self, *faults):
        data = bytearray(FULL_FILE)
        for number, offset, wrong, _ in faults:
            if number == 6:
                for day in range(3):
                    data[DAY_60 + 120 * day:DAY_60 + 2 + 120 * day] = (10_000).to_bytes(2, "big")
            else:
                data[offset:offset + len(wrong)] = wrong
        return bytes(data)

    def test_good(self):
        self.assertEqual(len(FULL_FILE), END)
        self.assertEqual(read(FULL_FILE), examples.apart())
        self.assertEqual(reference.rates_part(FULL_FILE), (5, 360))

    def test_each_fault(self):
        for fault in FAULTS:
            self.assertEqual(number_of(self.spoiled(fault)), fault[0], fault)
            self.assertEqual(reference.rates_part(self.spoiled(fault)), (0, 0))
            self.assertEqual(listing(self.spoiled(fault)), b"R %d\n" % fault[0])
        self.assertEqual({fault[0] for fault in FAULTS} | {1}, set(range(1, 13)))

    def test_earlier_fault_wins(self):
        for i, first in enumerate(FAULTS):
            for second in FAULTS[i + 1:]:
                self.assertEqual(number_of(self.spoiled(first, second)), first[0], (first, second))

    def test_every_cut(self):
        for length in range(END):
            self.assertEqual(number_of(FULL_FILE[:length]), 1, length)

    def test_every_cut_of_every_fault(self):
        for fault in FAULTS:
            data = self.spoiled(fault)
            for length in range(len(data)):
                # A file cut after the spoiled field's end shows the fault, an earlier cut shows 1 ...
                expected = fault[0] if length >= fault[3] else 1
                if fault[0] == 2:  # ... and without its extra byte this one is good.
                    expected = 1 if length < END else 0
                self.assertEqual(number_of(data[:length]), expected, (fault, length))

    def test_every_map(self):
        for bits in range(0x10000):
            data = bits.to_bytes(2, "big") + FULL_FILE[2:]
            if bits & 0xFEE6 in (0x0066, 0x00E4):  # bit 1, or bit 7
                self.assertNotEqual(number_of(data), 3)
            else:
                self.assertEqual(number_of(data), 3)

    def test_limits(self):
        good = examples.up()

        def check(number, **changes):
            data = encode(replace(good, **changes), True, True, True)
            self.assertEqual(number_of(data), number, str(changes)[:80])
        for name, low, high, number in (("ufr", 0, 5_000, 9), ("heads", 1, 1_000_000, 12),
                                        ("pension_age", 0, 1_200, 12), ("mean_age", 0, 1_200, 12)):
            check(0, **{name: low})
            check(0, **{name: high})
            check(number, **{name: high + 1})
            if low:
                check(number, **{name: low - 1})
        for name in AMOUNTS:
            check(0, amounts=good.amounts | {name: 0})
            check(0, amounts=good.amounts | {name: 10 ** 11})
            for bad in (10 ** 11 + 1, 2 ** 63, 2 ** 64 - 1):
                check(10, amounts=good.amounts | {name: bad})
        for name in SHOCKS:
            check(0, shocks=good.shocks | {name: 0})
            check(0, shocks=good.shocks | {name: SHOCK_LIMITS[name]})
            for bad in (SHOCK_LIMITS[name] + 1, 0x8000, 0xFFFF):
                check(11, shocks=good.shocks | {name: bad})
        for name, most in (("pension", 120), ("bonds", 60)):
            check(7, **{name: []})
            check(7, **{name: [5] * (most + 1)})
            check(0, **{name: [0] * most})
            check(0, **{name: [10 ** 8] * most})
            check(8, **{name: [10 ** 8] * (most - 1) + [10 ** 8 + 1]})
        check(4, days=[])
        check(4, days=flat(*[7] * 71))
        check(0, days=flat(*[7] * 70))
        check(0, days=flat(10_000))
        check(0, days=flat(-1_000))
        for place in (0, 30, 59):
            for bad in (10_001, -1_001, 0x7FFF, -0x8000):
                day = [0] * 60
                day[place] = bad
                check(5, days=flat(0) + [day])

    def test_refusal_6_both_ends_by_the_sum_over_days(self):
        # term 3 of two days: 3 s(3) - 2 s(2) against -4,000 and 24,000
        for s2, s3, number in ((0, 8_000, 0), (0, 8_001, 6), (1_000, -667, 6), (1_001, -666, 0), (500, -1_000, 0)):
            days = [[0, s2 // 2] + [s3 // 2] * 58, [0, s2 - s2 // 2] + [s3 - s3 // 2] * 58]
            self.assertEqual(number_of(file_of(c1(days=days))), number, (s2, s3))

    def test_round_trip(self):
        rng = random.Random(11)
        for _ in range(150):
            case = examples.random_case(rng)
            present = examples.presence(rng, case)
            data = encode(case, *present)
            self.assertEqual(read(data), case)
            self.assertEqual(reference.rates_part(data), (5 if present[0] else 3, 120 * len(case.days)))

    def test_spoiled_bytes(self):
        # Whatever the bytes: a number 1 to 12, or a case that says exactly these bytes.
        rng = random.Random(13)
        seen = Counter()
        for _ in range(3_000):
            data = bytearray(FULL_FILE[:rng.choice([END, END, rng.randint(0, END)])])
            for _ in range(rng.randint(1, 2)):
                if data:
                    data[rng.randrange(len(data))] = rng.choice([0, 1, 0x7F, 0x80, 0xFF, rng.randrange(256)])
            answer = read(bytes(data))
            if isinstance(answer, Refusal):
                self.assertIn(answer.number, range(1, 13))
            else:
                bits = int.from_bytes(data[:2], "big")
                self.assertEqual(encode(answer, *(bool(bits >> bit & 1) for bit in (0, 3, 4, 8))), data)
            seen[number_of(bytes(data))] += 1
        self.assertGreater(seen[0], 100)

    def test_absent_fields(self):
        case = replace(c1(), amounts=dict.fromkeys(AMOUNTS, 0))
        data = encode(case, False, False, False)
        self.assertEqual(data[:2], b"\x00\x66")
        self.assertEqual(len(data), 224 - 64)
        self.assertEqual(read(data), case)
        with self.assertRaises(ValueError):
            encode(c1(), False, False, False)

    def test_buffers(self):
        for lengths in ((239, 240), (240, 239), (0, 0)):
            factors, rates = [7] * lengths[0], [8] * lengths[1]
            self.assertEqual(fill(b"", factors, rates), Refusal(13))
            self.assertEqual((factors, rates), ([7] * lengths[0], [8] * lengths[1]))
        factors, rates = [7] * 241, [8] * 240
        self.assertEqual(fill(FULL_FILE[:-1], factors, rates), Refusal(1))
        self.assertEqual((factors, rates), ([7] * 241, [8] * 240))
        self.assertIsNone(fill(FULL_FILE, factors, rates))
        rounded = Rounded(examples.up())
        self.assertEqual(factors[240:], [7])
        self.assertEqual(len(rates), 240)
        for t in range(1, 121):
            self.assertEqual(tuple(factors[2 * t - 2:2 * t]), rounded.factors[t])
            self.assertEqual(tuple(rates[2 * t - 2:2 * t]), rounded.zero_rates[t])

    def test_command_line(self):
        program = [sys.executable, "-m", "tests.reference.reference"]
        run = subprocess.run([*program, "-"], cwd=ROOT, input=file_of(c1()), capture_output=True, check=True)
        self.assertEqual(run.stdout, C1_LINES)
        run = subprocess.run([*program, os.devnull], cwd=ROOT, capture_output=True, check=True)
        self.assertEqual(run.stdout, b"R 1\n")

    def test_sixteen_bits_taken_unsigned(self):
        data = encode(examples.bent(), True, False, True)
        self.assertEqual(read(data).days[0][0], -290)
        with mock.patch.object(reference, "twos_complement", lambda number, length: number):
            self.assertEqual(read(data), Refusal(5))


if __name__ == "__main__":
    unittest.main()
