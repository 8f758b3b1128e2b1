"""Histories of months beside lists of months and the reference in tests/: python3 -m unittest discover -s hosts/python/tests."""

import copy
import ctypes
import os
import pickle
import random
import subprocess
import sys
import unittest
from itertools import product
from pathlib import Path

HERE = Path(__file__).resolve()
sys.path[:0] = [str(HERE.parents[1]), str(HERE.parents[3])]
import ginghamowl
from common import BOTH_FORMS, C1_FILE, answer_of, seeded_files
from ginghamowl import HISTORY_BYTES, HISTORY_MONTHS, History, Refused, _library
from tests.inputs import files, histories
from tests.inputs.histories import any_start, history_of, with_month
from tests.reference import months, reference

FLAT = [3_100] * HISTORY_MONTHS
STARTS_OUT_OF_RANGE = (120, 239, 256, 2 ** 32, 2 ** 32 + 5, 2 ** 63, 2 ** 64 - 1, 2 ** 64, 2 ** 64 + 5, 2 ** 100, -1, -120,
                       -2 ** 64 + 5)
MONTHS_OUT_OF_LIMITS = (-1_001, 10_001, -2 ** 15, 2 ** 15 - 1, 2 ** 15, -2 ** 15 - 1, 2 ** 16 + 3_100, 3_100 - 2 ** 16, 2 ** 64 + 5,
                        2 ** 100, -2 ** 100)


def put(values, place, value):
    return [*values[:place], value, *values[place + 1:]]


class Months(unittest.TestCase):
    def refused(self, number, call, *arguments):
        with self.assertRaises(Refused) as caught:
            call(*arguments)
        self.assertEqual(caught.exception.number, number)

    def assert_ufr(self, history, data, start):
        """The history gives the reference's refusal or UFR of these bytes. Returns the refusal's number."""
        expected = months.ufr_of(data, start)
        self.assertEqual(answer_of(history.ufr), expected.refusal or expected.ufr)
        return expected.refusal


class BesideTheReference(Months):
    def assert_as_expected(self, file, history, start):
        """The answer is the reference's refusal, or what the file is worth that has the UFR found in its field. Returns the number."""
        number = months.refusal(file, history, start, 240, 240)
        named = None if number else months.with_ufr_field(file, months.ufr_of(history, start).ufr)
        answer = answer_of(History.from_bytes(history, start).value, file)
        self.assertEqual(answer, number or ginghamowl.value(named))
        if not number:
            self.assertEqual(answer.listing().encode(), reference.listing(named))
        return number

    def test_ufrs(self):
        """Each border of rounding, a month at or past a limit in each place, other lengths and any bytes."""
        rng, seen = random.Random(10), set()
        kinds = histories.border_histories, histories.one_month, histories.other_lengths
        made = [history for kind in kinds for history in kind(rng)] + [histories.random_history(rng) for _ in range(300)]
        for history in made:
            start = any_start(rng)
            seen.add(self.assert_ufr(History.from_bytes(history, start), history, start))
        self.assertEqual(seen, {0, 17, 18, 19})

    def test_valuations(self):
        """Files with a UFR of their own and without, of either days field."""
        rng, seen = random.Random(11), set()
        for file, held in seeded_files(11, 80):
            number = self.assert_as_expected(file, histories.random_history(rng), rng.randrange(HISTORY_MONTHS))
            seen.add((held.rate_bytes, number))
        for call in rng.sample(histories.every_ufr(rng, histories.accepted_files(rng, 2)), 40):
            self.assertEqual(self.assert_as_expected(call.file, call.history, call.start), 0)
        self.assertEqual(seen, set(product(BOTH_FORMS, (0, 18, 19))))

    def test_rewritten_files(self):
        """A history gives a file with days in two bytes, and the same rewritten to four, the same valuation."""
        history = History(FLAT, 5)
        for file, _ in seeded_files(16, 20, [2]):
            self.assertEqual(history.value(files.rewritten(file)), history.value(file))

    def test_order(self):
        """Two faults, of the file and of the history; the lent buffers are the package's own, so never 13."""
        rng, seen = random.Random(12), set()
        calls = [call for base in histories.bases() for call in histories.two_faults(base) if min(call.lengths) >= 240]
        for call in rng.sample(calls, 300):
            seen.add(self.assert_as_expected(call.file, call.history, call.start))
        for number, files in histories.refused_files().items():
            self.assertEqual(self.assert_as_expected(files[0], b"", 120), number)
            seen.add(number)
        self.assertEqual(seen, {*range(1, 13), 17, 18})


class MonthEnds(Months):
    def test_beside_a_list(self):
        """A month comes each month end, and the oldest goes, three times round the ring."""
        rng = random.Random(13)
        held = [rng.randint(-1_000, 10_000) for _ in range(HISTORY_MONTHS)]
        history = History(held[70:] + held[:70], 50)
        for end in range(3 * HISTORY_MONTHS):
            self.assertEqual((history.months(), history.start), (tuple(held), (50 + end) % HISTORY_MONTHS))
            self.assert_ufr(history, history_of(held), 0)
            month = rng.choice([-1_000, 10_000, rng.randint(-1_000, 10_000)])
            history.replace_oldest(month)
            held = [*held[1:], month]

    def test_refused(self):
        """17, then 18 of the changed history; the history is as it was."""
        for start in STARTS_OUT_OF_RANGE:
            history = History(FLAT, start)
            for month in (3_100, 10_001, 2 ** 100):
                self.refused(17, history.replace_oldest, month)
            self.assertEqual(history, History(FLAT, start))
        for data in (b"", bytes(239), bytes(241)):
            self.refused(17, History.from_bytes(data, 0).replace_oldest, 3_100)
        history = History(FLAT, 119)
        for month in MONTHS_OUT_OF_LIMITS:
            self.refused(18, history.replace_oldest, month)
        self.assertEqual(history, History(FLAT, 119))

    def test_a_month_held_that_is_out_of_limits(self):
        for start, number in ((3, 18), (4, 0)):
            history = History(put(FLAT, 4, 10_001), start)
            if number:
                self.refused(number, history.replace_oldest, 3_100)
            else:
                history.replace_oldest(3_100)
                self.assertEqual(history, History(FLAT, 5))

    def test_a_ufr_out_of_limits(self):
        """The months may come back to one that is within them."""
        history = History([-51] * HISTORY_MONTHS)
        self.refused(19, history.ufr)
        history.replace_oldest(69)
        self.assertEqual(history.ufr(), 0)


class Numbers(Months):
    def test_lengths(self):
        for count in (0, 1, 119, 121, 240):
            for call in (History([20_000] * count).ufr, History([20_000] * count).months):
                self.refused(17, call)
        self.assertEqual(History(FLAT).months(), tuple(FLAT))

    def test_starts(self):
        """Also numbers that C could only cut."""
        for start in STARTS_OUT_OF_RANGE:
            for held in (FLAT, [-2 ** 15] * HISTORY_MONTHS):
                history = History(held, start)
                for call, *arguments in ((history.ufr,), (history.months,), (history.value, C1_FILE)):
                    self.refused(17, call, *arguments)
        for start in range(HISTORY_MONTHS):
            self.assertEqual(History(FLAT, start).ufr(), 3_100)

    def test_months(self):
        """Also numbers that two bytes could only cut."""
        for month in MONTHS_OUT_OF_LIMITS:
            for place in (0, 60, 119):
                self.refused(18, History(put(FLAT, place, month)).ufr)
        for month in (-1_000, 10_000):
            self.assertEqual(History(put(FLAT, 60, month)).months()[60], month)

    def test_what_is_no_int(self):
        history = History(FLAT, 9)
        for wrong in (1.0, True, "1", None, b"1"):
            with self.assertRaisesRegex(TypeError, f"^a month is an int, not {type(wrong).__name__}$"):
                History(put(FLAT, 119, wrong))
            with self.assertRaisesRegex(TypeError, f"^a month is an int, not {type(wrong).__name__}$"):
                history.replace_oldest(wrong)
            for make in (lambda: History(FLAT, wrong), lambda: History.from_bytes(bytes(240), wrong)):
                with self.assertRaisesRegex(TypeError, f"^a start index is an int, not {type(wrong).__name__}$"):
                    make()
        self.assertEqual(history, History(FLAT, 9))

    def test_what_is_no_file(self):
        for wrong in ("00 76", None, 7, ginghamowl.Case.read(C1_FILE)):
            with self.assertRaisesRegex(TypeError, "^a case file is bytes, not "):
                History(FLAT).value(wrong)
        self.assertEqual(History(FLAT).value(bytearray(C1_FILE)), History(FLAT).value(C1_FILE))


class Shown(Months):
    def test_repr(self):
        for history, shown in ((History(FLAT, 37), "37, UFR 3100"), (History([0] * HISTORY_MONTHS), "0, UFR 0"),
                               (History(FLAT, 120), "120, refused with 17"), (History.from_bytes(b"", 5), "5, refused with 17"),
                               (History(put(FLAT, 4, 10_001), 119), "119, refused with 18"),
                               (History([5_050] * HISTORY_MONTHS), "0, refused with 19")):
            self.assertEqual(repr(history), f"<History: oldest month at {shown}>")

    def test_without_the_library(self):
        """A history may be made without it, and so shown."""
        environment = os.environ | {"PYTHONPATH": str(HERE.parents[1]), "GINGHAMOWL_LIBRARY": "/no/such/library.so"}
        run = subprocess.run([sys.executable, "-c", "import ginghamowl; print(ginghamowl.History([0] * 120, 7))"], env=environment,
                             capture_output=True, text=True)
        self.assertEqual((run.stdout, run.stderr), ("<History: oldest month at 7, UFR unknown without the library>\n", ""))


class Bytes(Months):
    def test_there_and_back(self):
        held = put(put(FLAT, 0, -2), 119, 258)
        history = History(held, 7)
        data = history.to_bytes()
        self.assertEqual(data, b"\xff\xfe" + b"\x0c\x1c" * 118 + b"\x01\x02")
        self.assertEqual((len(data), data), (HISTORY_BYTES, history_of(held)))
        for given in (data, bytearray(data), memoryview(data)):
            self.assertEqual(History.from_bytes(given, 7), history)
        lent = bytearray(data)
        kept = History.from_bytes(lent, 7)
        lent[0] = 0
        self.assertEqual(kept, history)

    def test_what_is_no_bytes(self):
        for wrong in ("0" * 240, None, 7, FLAT):
            with self.assertRaisesRegex(TypeError, "^a history of months is bytes, not "):
                History.from_bytes(wrong, 0)

    def test_equal_and_copied(self):
        history = History(FLAT, 2)
        for other in (copy.copy(history), copy.deepcopy(history), pickle.loads(pickle.dumps(history))):
            self.assertEqual(other, history)
            other.replace_oldest(3_100)
            self.assertNotEqual(other, history)  # the same bytes, and another start
        self.assertNotEqual(history, History.from_bytes(with_month(history.to_bytes(), 0, 3_101), 2))
        self.assertNotEqual(history, history.to_bytes())
        with self.assertRaises(TypeError):
            hash(history)

    def test_size(self):
        self.assertEqual((ctypes.sizeof(_library.HostUfr), _library.HostUfr.ufr.offset), (16, 8))


if __name__ == "__main__":
    unittest.main()
