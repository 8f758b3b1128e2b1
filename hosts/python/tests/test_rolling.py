"""Rolling windows beside lists of days and the reference in tests/: python3 -m unittest discover -s hosts/python/tests."""

import copy
import ctypes
import pickle
import random
import struct
import sys
import unittest
from dataclasses import replace
from pathlib import Path

HERE = Path(__file__).resolve()
sys.path[:0] = [str(HERE.parents[1]), str(HERE.parents[3])]
import ginghamowl
from common import C1, UP, UP_FOUR, answer_of, case_of, faults_in_order, seeded_files, shortest, with_field
from ginghamowl import WINDOW_BYTES, WINDOW_DAYS, DaysForm, Refused, RollingWindow, _library
from tests.inputs import examples, files
from tests.reference import reference

FLAT, STEEP = (0,) * 60, (0,) + (6_001,) * 59  # STEEP alone is refused with 6
START, RATES, SUMS = 8, 16, 16 + 2 * 60 * WINDOW_DAYS  # where the parts of a window stand in its bytes


def random_day(rng):
    return tuple(rng.choice([-1_000, 10_000, rng.randint(-1_000, 10_000)]) for _ in range(60))


def window_from(start, days):
    """A window of these days, the oldest of which stands in this slot."""
    window = RollingWindow()
    for _ in range(start):
        window.add((-1_000, *[10_000] * 59))
        window.drop()
    for day in days:
        window.add(day)
    return window


def with_bytes(window, at, form, *numbers):
    """The window with other numbers from this byte on; `form` is that of the module struct."""
    data = bytearray(window.to_bytes())
    struct.pack_into("=" + form, data, at, *numbers)
    return RollingWindow.from_bytes(data)


class Rolling(unittest.TestCase):
    def refused(self, number, call, *arguments):
        with self.assertRaises(Refused) as caught:
            call(*arguments)
        self.assertEqual(caught.exception.number, number)


class BesideAList(Rolling):
    def assert_holds(self, window, slots, start, days):
        """The window's bytes are these numbers; its days are these, oldest first."""
        sums = [sum(day[t] for day in days) for t in range(60)]
        rates = [rate for slot in slots for rate in slot]
        self.assertEqual(window.to_bytes(), struct.pack("=2Q4200h60q", len(days), start, *rates, *sums))
        self.assertEqual(window.days(), tuple(days))
        self.assertEqual(len(window), len(days))

    def test_scripts(self):
        """Additions and drops as they come, more of the one and then more of the other."""
        rng, refused = random.Random(6), []
        for _ in range(4):
            window, slots, start, days = RollingWindow(), [FLAT] * WINDOW_DAYS, 0, []
            for change in range(300):
                if rng.random() < (0.9 if change // 100 % 2 == 0 else 0.1):
                    if len(days) == WINDOW_DAYS:
                        self.refused(15, window.add, random_day(rng))
                        refused.append(15)
                    else:
                        day = random_day(rng)
                        window.add(day)
                        slots[(start + len(days)) % WINDOW_DAYS] = day
                        days = [*days, day]
                elif not days:
                    self.refused(16, window.drop)
                    refused.append(16)
                else:
                    window.drop()
                    start, days = (start + 1) % WINDOW_DAYS, days[1:]
                self.assert_holds(window, slots, start, days)
        self.assertEqual(set(refused), {15, 16})

    def test_new(self):
        self.assertEqual(RollingWindow().to_bytes(), bytes(WINDOW_BYTES))
        self.assertEqual(RollingWindow().days(), ())

    def test_sizes(self):
        self.assertEqual(ctypes.sizeof(_library.HostRollingWindow), WINDOW_BYTES)
        self.assertEqual(ctypes.sizeof(_library.HostDay), 240)
        self.assertEqual((ctypes.sizeof(_library.HostChangedWindow), _library.HostChangedWindow.window.offset), (8904, 8))


class Valued(Rolling):
    def test_beside_files(self):
        """A case that has the window's days is worth what its file is; the days that the case itself has make no difference."""
        rng, verdicts = random.Random(7), set()
        for _, held in seeded_files(10, 25, [2]):
            file, window = shortest(held), window_from(rng.randrange(WINDOW_DAYS), held.days)
            expected = ginghamowl.value(file)
            self.assertEqual(expected.listing().encode(), reference.listing(file))
            for own_days in (held.days, [FLAT], [FLAT] * 70):
                self.assertEqual(window.value(replace(case_of(held), days=own_days)), expected)
            for four in (files.rewritten_case(held), replace(held, days=[[500_001] * 60] * 70, rate_bytes=4)):
                self.assertEqual(window.value(case_of(four)), expected)
            verdicts.add(expected.verdict)
        self.assertEqual(verdicts, set(ginghamowl.Verdict))

    def test_own_days_in_four_bytes(self):
        """A case's own days are judged by its own form: what is out of limits in two bytes may be within them in four."""
        window, four = window_from(69, [FLAT, FLAT]), DaysForm.FOUR_BYTES
        expected = ginghamowl.value(replace(C1, days=[FLAT, FLAT]).save())
        for number, day in ((5, [10_001] * 60), (6, STEEP)):
            self.refused(number, window.value, replace(C1, days=[day]))
            self.assertEqual(window.value(replace(C1, days=[day], days_form=four)), expected)
        for number, day in ((5, [1_000_001, *FLAT[1:]]), (5, [-100_001, *FLAT[1:]]), (6, [-1, *[600_000] * 59])):
            self.refused(number, window.value, replace(C1, days=[day], days_form=four))

    def test_through_the_evenings(self):
        """One day comes each evening, and the oldest goes; the window is worth, or refused, what the file with its days is."""
        rng, seen = random.Random(9), set()
        days = [(0, *[rng.randint(5_990, 6_009)] * 59) for _ in range(100)]  # 6 begins where their mean is above 6,000
        window = window_from(0, days[:5])
        for evening, day in enumerate(days[5:], 5):
            window.drop()
            window.add(day)
            file = reference.encode(replace(examples.up(), days=days[evening - 4:evening + 1]), True, True, True)
            expected = answer_of(ginghamowl.value, file)
            self.assertEqual(answer_of(window.value, UP), expected)
            seen.add(expected if expected == 6 else 0)
        self.assertEqual(seen, {0, 6})

    def test_free_slots(self):
        """Windows that hold the same days are worth the same, wherever the oldest stands and whatever lies in free slots."""
        plain = window_from(0, UP.days)
        for start in (0, 1, 42, 69):
            window = window_from(start, UP.days)
            for slot in range(len(UP.days), WINDOW_DAYS):
                window = with_bytes(window, RATES + 120 * ((start + slot) % WINDOW_DAYS), "60h", *[-2 ** 15] * 60)
            self.assertNotEqual(window, plain)
            self.assertEqual(window.days(), plain.days())
            self.assertEqual(window.value(UP), plain.value(UP))

    def test_refused(self):
        """Of the case's faults the first is given, and ahead of what is wrong with the window's days."""
        windows = window_from(0, UP.days), window_from(5, []), window_from(69, [STEEP])
        for case in (UP, UP_FOUR):
            faults = faults_in_order(case)
            for first, (number, spoiled) in enumerate(faults):
                for _, later in faults[first:]:
                    for window in windows:
                        self.refused(number, window.value, replace(case, **(later | spoiled)))
            self.refused(4, windows[1].value, case)
            self.refused(6, windows[2].value, case)
            self.assertEqual(windows[0].value(case), ginghamowl.value(UP.save()))

    def test_growth(self):
        """6 is of the days held together."""
        window = window_from(69, [STEEP])
        self.refused(6, window.value, C1)
        window.add((0, *[5_999] * 59))
        self.assertEqual(window.value(C1), ginghamowl.value(replace(C1, days=window.days()).save()))
        window.add(STEEP)
        self.refused(6, window.value, C1)

    def test_what_is_no_case(self):
        window = window_from(3, [FLAT])
        for wrong in (C1.save(), None, window):
            with self.assertRaises(AttributeError):
                window.value(wrong)
        with self.assertRaisesRegex(TypeError, "^heads is an int, not float$"):
            window.value(with_field(C1, "people", heads=1.0))


class RefusedChanges(Rolling):
    def test_rates(self):
        """Also numbers that C could only cut."""
        window = window_from(68, [FLAT, FLAT, FLAT])
        before = window.to_bytes()
        for rate in (-1_001, 10_001, 2 ** 15, 2 ** 16, -2 ** 16, 2 ** 31 - 1, 2 ** 31, -2 ** 31, -2 ** 31 - 1, 2 ** 32, 2 ** 32 + 5,
                     -2 ** 32, 2 ** 64, 2 ** 100, -2 ** 100):
            for term in (0, 30, 59):
                self.refused(5, window.add, [*FLAT[:term], rate, *FLAT[term + 1:]])
        self.assertEqual(window.to_bytes(), before)
        for rate in (-1_000, 10_000):
            window.add([rate] * 60)
        self.assertEqual(window.days(), (FLAT, FLAT, FLAT, (-1_000,) * 60, (10_000,) * 60))

    def test_order(self):
        """Of a full window the rates are not looked at; a damaged one comes before all."""
        full, empty = window_from(30, [FLAT] * WINDOW_DAYS), window_from(30, [])
        for day in (FLAT, [2 ** 40] * 60):
            self.refused(15, full.add, day)
            self.refused(27, with_bytes(full, SUMS, "q", 1).add, day)
        self.refused(16, empty.drop)
        self.refused(27, with_bytes(empty, SUMS, "q", 1).drop)
        self.assertEqual((full, empty), (window_from(30, [FLAT] * WINDOW_DAYS), window_from(30, [])))

    def test_days_that_have_not_60_rates(self):
        """These are no days, so the engine is not asked, whatever the window is."""
        windows = RollingWindow(), window_from(9, [FLAT] * WINDOW_DAYS), with_bytes(RollingWindow(), 0, "Q", 71)
        for window in windows:
            before = window.to_bytes()
            for count in (0, 1, 59, 61, 120):
                with self.assertRaisesRegex(ValueError, f"^a day has 60 rates, not {count}$"):
                    window.add([20_000] * count)
            self.assertEqual(window.to_bytes(), before)

    def test_what_is_no_int(self):
        window = window_from(9, [FLAT])
        for wrong in (1.0, True, "1", None, b"1"):
            for day in ([wrong, *FLAT[1:]], [*FLAT[1:], wrong], [wrong]):
                with self.assertRaisesRegex(TypeError, f"^a rate is an int, not {type(wrong).__name__}$"):
                    window.add(day)
        with self.assertRaises(TypeError):
            window.add(None)
        self.assertEqual(window, window_from(9, [FLAT]))


class Damaged(Rolling):
    def assert_damaged(self, window):
        """Every call refuses the window, whatever else is wrong, and leaves it as it was."""
        before = window.to_bytes()
        for call, *arguments in ((window.add, FLAT), (window.add, [2 ** 40] * 60), (window.drop,), (window.days,),
                                 (window.value, C1), (window.value, replace(C1, ufr=5_001)), (len, window)):
            self.refused(27, call, *arguments)
        self.assertEqual((window.to_bytes(), repr(window), bool(window)), (before, "<RollingWindow: damaged>", True))

    def test_each_part(self):
        days = [tuple(20 * number + t % 7 - 900 for t in range(60)) for number in range(WINDOW_DAYS)]
        for start, count in ((0, 0), (69, 1), (50, 40), (7, WINDOW_DAYS)):
            right = window_from(start, days[:count])
            self.assertEqual(right.days(), tuple(days[:count]))
            for wrong in (71, 2 ** 64 - 1, 2 ** 32 + count, 2 ** 64 - 1 - start):
                self.assert_damaged(with_bytes(right, 0, "Q", wrong))
            for wrong in (70, 2 ** 64 - 1, 2 ** 32 + start, start + 70):
                self.assert_damaged(with_bytes(right, START, "Q", wrong))
            for term in (0, 31, 59):
                total = sum(day[term] for day in days[:count])
                for wrong in (total + 1, total - 1, total + 2 ** 32, -2 ** 63):
                    self.assert_damaged(with_bytes(right, SUMS + 8 * term, "q", wrong))
            for held in range(count):
                for wrong in (-1_001, 10_001, days[held][59] + 1):
                    self.assert_damaged(with_bytes(right, RATES + 120 * ((start + held) % WINDOW_DAYS) + 118, "h", wrong))

    def test_a_rate_out_of_limits_with_its_sum(self):
        one = window_from(3, [FLAT])
        for rate in (-1_001, 10_001, -2 ** 15, 2 ** 15 - 1):
            self.assert_damaged(with_bytes(with_bytes(one, RATES + 360, "h", rate), SUMS, "q", rate))
        for rate in (-1_000, 10_000):
            window = with_bytes(with_bytes(one, RATES + 360, "h", rate), SUMS, "q", rate)
            self.assertEqual(window.days(), ((rate, *FLAT[1:]),))

    def test_what_damages_nothing(self):
        """An empty or full window may start anywhere, and days of one sum may change places."""
        for start in range(WINDOW_DAYS):
            self.assertEqual(with_bytes(RollingWindow(), START, "Q", start).days(), ())
        days = [(number,) * 60 for number in range(WINDOW_DAYS)]
        self.assertEqual(with_bytes(window_from(0, days), START, "Q", 4).days(), (*days[4:], *days[:4]))


class Shown(Rolling):
    def test_repr(self):
        for start, count, shown in ((0, 0, "no day of 70"), (69, 0, "no day of 70"),
                                    (0, 1, "1 of 70 days, oldest in slot 0, newest in slot 0"),
                                    (68, 3, "3 of 70 days, oldest in slot 68, newest in slot 0"),
                                    (7, 70, "70 of 70 days, oldest in slot 7, newest in slot 6")):
            self.assertEqual(repr(window_from(start, [FLAT] * count)), f"<RollingWindow: {shown}>")

    def test_true(self):
        """A window of no day is a window: `or` does not put another in its place."""
        for window in (RollingWindow(), window_from(5, []), window_from(5, [FLAT]), with_bytes(RollingWindow(), 0, "Q", 71)):
            self.assertIs(window or None, window)
        self.assertEqual(len(window_from(5, [])), 0)


class Bytes(Rolling):
    def test_there_and_back(self):
        window = window_from(40, UP.days)
        data = window.to_bytes()
        self.assertIs(type(data), bytes)
        for given in (data, bytearray(data), memoryview(data)):
            self.assertEqual(RollingWindow.from_bytes(given), window)
        lent = bytearray(data)
        kept = RollingWindow.from_bytes(lent)
        lent[0] = 71
        self.assertEqual(kept, window)

    def test_lengths(self):
        for count in (0, 1, WINDOW_BYTES - 1, WINDOW_BYTES + 1, 2 * WINDOW_BYTES):
            with self.assertRaisesRegex(ValueError, f"^a rolling window has 8896 bytes, not {count}$"):
                RollingWindow.from_bytes(bytes(count))
        for wrong in ("0" * WINDOW_BYTES, None, 7, [0] * WINDOW_BYTES):
            with self.assertRaisesRegex(TypeError, "^a rolling window is bytes, not "):
                RollingWindow.from_bytes(wrong)

    def test_any_bytes(self):
        rng = random.Random(8)
        for _ in range(200):
            self.refused(27, RollingWindow.from_bytes(rng.randbytes(WINDOW_BYTES)).days)

    def test_equal_and_copied(self):
        window = window_from(2, UP.days)
        for other in (copy.copy(window), copy.deepcopy(window), pickle.loads(pickle.dumps(window))):
            self.assertEqual(other, window)
            other.drop()
            self.assertNotEqual(other, window)
        self.assertEqual(window.days(), UP.days)
        self.assertNotEqual(window, window.to_bytes())
        with self.assertRaises(TypeError):
            hash(window)


if __name__ == "__main__":
    unittest.main()
