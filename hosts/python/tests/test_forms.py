"""The form of a case's days, two bytes or four, beside the reference in tests/: python3 -m unittest discover -s hosts/python/tests."""

import copy
import ctypes
import pickle
import sys
import unittest
from dataclasses import asdict, fields, replace
from pathlib import Path

HERE = Path(__file__).resolve()
sys.path[:0] = [str(HERE.parents[1]), str(HERE.parents[3])]
import ginghamowl
from common import C1, STORED, UP, UP_FOUR, case_of, refused_with, seeded_files
from ginghamowl import Case, DaysForm, _library
from tests.inputs import files

DAY = [0] * 60
TWO, FOUR = DaysForm


class Forms(unittest.TestCase):
    def test_two_bytes_where_nothing_is_said(self):
        said = {field.name: getattr(UP, field.name) for field in fields(Case) if field.name != "days_form"}
        self.assertEqual(Case(**said), UP)
        self.assertIs(Case(**said).days_form, DaysForm.TWO_BYTES)

    def test_read(self):
        """A case that is read tells its form, and is edited and saved in it."""
        for case in (UP, UP_FOUR):
            read = Case.read(case.save())
            self.assertIs(read.days_form, case.days_form)
            self.assertEqual(Case.read(replace(read, ufr=4_100).save()), replace(case, ufr=4_100))

    def test_rewritten(self):
        """Every rate times 100, in four bytes: another case and other bytes, and the same valuation."""
        for data, held in seeded_files(15, 20, [2]):
            case, four = case_of(held), case_of(files.rewritten_case(held))
            self.assertNotEqual(four, case)
            self.assertEqual(four.save(), files.rewritten(case.save()))
            self.assertEqual(Case.read(four.save()), four)
            self.assertEqual(ginghamowl.value(four.save()), ginghamowl.value(data))

    def test_numbers_and_members(self):
        """A number of bytes serves as well as the member; no case has another."""
        self.assertEqual([(form.name, form.value) for form in DaysForm], [("TWO_BYTES", 2), ("FOUR_BYTES", 4)])
        self.assertIs(replace(UP_FOUR, days_form=4).days_form, DaysForm.FOUR_BYTES)
        for wrong in (0, 1, 3, 8, -2, 2 ** 64 + 4, True, None, "4"):
            with self.assertRaisesRegex(ValueError, " is not a valid DaysForm$"):
                replace(UP, days_form=wrong)

    def test_sizes(self):
        record = _library.HostCaseFields
        self.assertEqual((ctypes.sizeof(record), record.rate_bytes.offset, record.ufr.offset, record.people.offset), (208, 0, 8, 184))


class InForm(unittest.TestCase):
    def test_stored_cases(self):
        """Each accepted example is worth the same in four bytes, curve and listing; and from there it is the same case again."""
        seen = set()
        for path in STORED:
            data = path.read_bytes()
            if ginghamowl.refusal(data):
                continue
            case = Case.read(data)
            four = case.in_form(FOUR)
            self.assertIs(four.days_form, FOUR)
            saved, expected = ginghamowl.value(four.save()), ginghamowl.value(data)
            self.assertEqual(saved, expected)
            self.assertEqual(saved.listing(), path.with_suffix(".txt").read_text())
            if case.days_form is TWO:
                self.assertEqual(four.in_form(TWO), case)
                self.assertEqual(four.save(), files.rewritten(case.save()))
            seen.add(case.days_form)
        self.assertEqual(seen, {TWO, FOUR})

    def test_there_and_back(self):
        for _, held in seeded_files(17, 20, [2]):
            case, four = case_of(held), case_of(files.rewritten_case(held))
            self.assertEqual((case.in_form(FOUR), four.in_form(TWO)), (four, case))
            self.assertEqual(hash(four.in_form(TWO)), hash(case))

    def test_own_form(self):
        for case in (UP, UP_FOUR):
            self.assertIs(case.in_form(case.days_form), case)
            self.assertIs(case.in_form(int(case.days_form)), case)
        self.assertEqual(UP.in_form(4), UP.in_form(FOUR))
        for wrong in (0, 3, None, "4"):
            with self.assertRaisesRegex(ValueError, " is not a valid DaysForm$"):
                UP.in_form(wrong)

    def test_out_of_limits(self):
        """Also numbers that no file holds, and days that have not 60 rates: in either form save() refuses them alike."""
        for number in (-1_001, 10_001, 2 ** 31 - 1, -2 ** 31, 2 ** 64, -2 ** 100):
            case = replace(UP, days=[[number] * 60])
            four = case.in_form(FOUR)
            self.assertEqual(four.days, ((100 * number,) * 60,))
            self.assertEqual(four.in_form(TWO), case)
            self.assertEqual((refused_with(case), refused_with(four)), (5, 5))
        for days in ([], [[]], [[1] * 59, [2] * 61]):
            four = replace(UP, days=days).in_form(FOUR)
            self.assertEqual((refused_with(four), four.in_form(TWO)), (4, replace(UP, days=days)))

    def test_not_exact(self):
        """The first rate that two bytes do not hold is named, also one near a whole step, below 0 and out of limits."""
        for rate, percent in ((22_613, "0.22613"), (1, "0.00001"), (99, "0.00099"), (-1, "-0.00001"), (-150, "-0.00150"),
                              (1_000_001, "10.00001"), (-100_099, "-1.00099"), (10 ** 30 + 7, f"{10 ** 25}.00007")):
            days = [[0] * 60, [*[100] * 40, rate, *[-100] * 18, rate + 1], [rate] * 60]
            with self.assertRaises(ValueError) as caught:
                replace(UP_FOUR, days=days).in_form(TWO)
            count = 61 + ((rate + 1) % 100 != 0)
            self.assertEqual(str(caught.exception),
                             f"two bytes hold whole steps of 0.00001 only, and rates with more decimals are {count} of 180; "
                             f"the first is that of day 2, term 41: {rate} steps of 0.0000001, {percent} %")
        for whole in (0, 100, -100, 1_000_000, -100_000):
            self.assertEqual(replace(UP_FOUR, days=[[whole] * 60]).in_form(TWO).days, ((whole // 100,) * 60,))

    def test_what_is_no_int(self):
        for case, other in ((UP, FOUR), (UP_FOUR, TWO)):
            for wrong in (1.0, True, "1", None, b"1"):
                with self.assertRaisesRegex(TypeError, f"^a rate is an int, not {type(wrong).__name__}$"):
                    replace(case, days=[[1, *DAY[1:-1], wrong]]).in_form(other)


class DaysOfAnotherCase(unittest.TestCase):
    """Days that a case has kept are told from new ones, so that no change of the form alone makes other rates of them."""

    def not_taken(self, form, call):
        with self.assertRaisesRegex(ValueError, rf"^days_form is {form.name}, but .* case\.in_form\(DaysForm\.{form.name}\) gives "):
            call()

    def test_form_alone(self):
        for case, other in ((UP, FOUR), (UP_FOUR, TWO), (Case.read(UP.save()), FOUR), (UP.in_form(FOUR), TWO), (C1, FOUR)):
            self.not_taken(other, lambda: replace(case, days_form=other))
            self.not_taken(other, lambda: replace(case, days_form=int(other), ufr=4_100))
            self.not_taken(other, lambda: Case(case.ufr, case.days, case.pension, case.bonds, case.amounts, case.shocks, case.people,
                                               other))
            if hasattr(copy, "replace"):
                self.not_taken(other, lambda: copy.replace(case, days_form=other))

    def test_days_alone(self):
        self.not_taken(FOUR, lambda: replace(UP_FOUR, days=UP.days))
        self.not_taken(TWO, lambda: replace(UP, days=UP_FOUR.days))
        self.assertEqual(replace(UP_FOUR, days=UP.days, days_form=TWO).in_form(FOUR), UP.in_form(FOUR))

    def test_days_of_a_window(self):
        window = ginghamowl.RollingWindow()
        for day in UP.days:
            window.add(day)
        self.not_taken(FOUR, lambda: replace(UP_FOUR, days=window.days()))
        self.assertEqual(replace(UP_FOUR, days=window.days(), days_form=TWO), UP)

    def test_new_days(self):
        """Numbers in a new list or tuple are rates in whatever form is said; those of the case itself are not."""
        self.not_taken(FOUR, lambda: replace(UP, days=UP.days, days_form=FOUR))
        for days in (list(UP.days), tuple(UP.days), UP.days[:], [list(day) for day in UP.days]):
            self.assertEqual(replace(UP, days=days, days_form=FOUR).days, UP.days)

    def test_copies(self):
        """They are equal, and tell their form as the case does."""
        for case, other in ((UP, FOUR), (UP_FOUR, TWO)):
            pickled = [pickle.loads(pickle.dumps(case, protocol)) for protocol in range(pickle.HIGHEST_PROTOCOL + 1)]
            for same in (copy.copy(case), copy.deepcopy(case), replace(case), replace(case, ufr=case.ufr), *pickled):
                self.assertEqual((same, hash(same), repr(same), same.save()), (case, hash(case), repr(case), case.save()))
                self.not_taken(other, lambda: replace(same, days_form=other))
            self.not_taken(other, lambda: replace(case, days=asdict(case)["days"], days_form=other))

    def test_like_a_plain_tuple(self):
        for case in (UP, UP_FOUR):
            plain = tuple(case.days)
            self.assertIs(type(plain), tuple)
            self.assertIsNot(type(case.days), tuple)
            self.assertIsInstance(case.days, tuple)
            self.assertEqual((case.days, hash(case.days), repr(case.days)), (plain, hash(plain), repr(plain)))
            self.assertIn(f"days={plain!r}, pension=", repr(case))
            self.assertFalse(hasattr(case.days, "__dict__"))
