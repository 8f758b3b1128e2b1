"""The correlation between the equity classes, with figures worked by hand and beside the reference in tests/:
python3 -m unittest discover -s hosts/python/tests."""

import ctypes
import sys
import unittest
from dataclasses import fields, replace
from pathlib import Path

HERE = Path(__file__).resolve()
sys.path[:0] = [str(HERE.parents[1]), str(HERE.parents[3])]
import ginghamowl
from common import C1, UP, UP_FOUR, refused_with, with_field
from ginghamowl import DEFAULT_EQUITY_CORRELATION, Bracket, Case, DaysForm, Refused, RollingWindow, Shocks, _library
from tests.inputs import files

# S2 and S in cents with four losses of 100, 200, 300 and 400 euros and with S6 of 100,000 euros. In units of 100 euros the squares sum
# to 30 and the products of pairs to 35, so at 500 S2 is the root of 30 + 2 x 0.5 x 35.
WORKED = [(0, (54_772, 54_773), (10_000_149, 10_000_151)), (1, (54_836, 54_837), (10_000_150, 10_000_151)),
          (500, (80_622, 80_623), (10_000_324, 10_000_325)), (999, (99_964, 99_965), (10_000_499, 10_000_500)),
          (1_000, (100_000, 100_000), (10_000_499, 10_000_500))]
NUMBERS = [number for number, *_ in WORKED]
FOUR_LOSSES = with_field(with_field(C1, "amounts", mature=1_000, emerging=2_000, private_equity=500, property=800),
                         "shocks", mature_fall=100, emerging_fall=100, private_fall=600, property_fall=500)
FORMS = FOUR_LOSSES, FOUR_LOSSES.in_form(DaysForm.FOUR_BYTES)


def at(case, number):
    return with_field(case, "shocks", equity_correlation=number)


def written_out(case, number):
    """The file of the case with this number as its last field, whatever the number is."""
    without = at(case, 1_000).save()
    return bytes([without[0] | 1]) + without[1:] + number.to_bytes(2, "big")


class Fields(unittest.TestCase):
    def test_default(self):
        """Who names twelve shocks, as before there was a thirteenth, has a case without relief."""
        twelve = [getattr(UP.shocks, field.name) for field in fields(Shocks)][:12]
        self.assertEqual((Shocks(*twelve).equity_correlation, DEFAULT_EQUITY_CORRELATION), (1_000, 1_000))
        self.assertEqual(fields(Shocks)[-1].name, "equity_correlation")
        self.assertEqual(len(fields(Shocks)), 13)

    def test_sizes(self):
        record = _library.HostShocks
        self.assertEqual((ctypes.sizeof(record), record.equity_correlation.offset), (104, 96))
        self.assertEqual([name for name, _ in record._fields_], [field.name for field in fields(Shocks)])


class Files(unittest.TestCase):
    def test_there_and_back(self):
        """The field is the last two bytes, where its bit stands; a 1,000 is left out, and a file may have it."""
        for form in (*FORMS, UP, UP_FOUR):
            for number in NUMBERS:
                case = at(form, number)
                saved, whole = case.save(), written_out(form, number)
                self.assertEqual(saved, whole if number != 1_000 else at(form, 1_000).save())
                self.assertEqual((saved[0], len(whole) - len(saved)), (1, 0) if number != 1_000 else (0, 2))
                for data in (saved, whole):
                    self.assertEqual(Case.read(data), case)
                self.assertEqual(ginghamowl.value(saved), ginghamowl.value(whole))

    def test_in_form(self):
        for number in NUMBERS:
            case = at(UP, number)
            four = case.in_form(DaysForm.FOUR_BYTES)
            self.assertEqual(four.shocks, case.shocks)
            self.assertEqual(four.save(), files.rewritten(case.save()))
            self.assertEqual(ginghamowl.value(four.save()), ginghamowl.value(case.save()))

    def test_refused(self):
        for form in (*FORMS, UP, UP_FOUR):
            for number in (-1, 1_001, 65_535, 65_536, 65_536 + 500, 2 ** 32 + 1_000, 2 ** 64, 2 ** 64 + 500):
                self.assertEqual(refused_with(at(form, number)), 11)
            for number in (1_001, 1_024, 32_768, 65_535):
                data = written_out(form, number)
                for wrong, refusal in ((data, 11), (data + b"\0", 11), (data[:-1], 1), (data[:-2], 1)):
                    with self.assertRaises(Refused) as caught:
                        Case.read(wrong)
                    self.assertEqual(caught.exception.number, refusal)
            data = written_out(form, 500)
            self.assertEqual(ginghamowl.refusal(data + b"\0"), 2)
            self.assertEqual([ginghamowl.refusal(bytes([data[0] | 1 << bit]) + data[1:]) for bit in range(8)], [0, *[3] * 7])

    def test_what_is_no_int(self):
        for wrong in (1.0, True, "1", None):
            with self.assertRaisesRegex(TypeError, f"^equity_correlation is an int, not {type(wrong).__name__}$"):
                at(UP, wrong).save()


class Figures(unittest.TestCase):
    def test_by_hand(self):
        """S2 and S are those worked by hand, and all else is as it is without the field."""
        without = ginghamowl.value(FOUR_LOSSES.save())
        for form in FORMS:
            for number, s2, s in WORKED:
                valuation = ginghamowl.value(at(form, number).save())
                self.assertEqual((valuation.figures.s2, valuation.figures.s), (Bracket(*s2), Bracket(*s)))
                figures = replace(valuation.figures, s2=without.figures.s2, s=without.figures.s)
                self.assertEqual(replace(valuation, figures=figures), without)

    def test_rolling(self):
        """A rolling window hands the number on: a case of other days, valued with these, is worth what the case of these days is."""
        window = RollingWindow()
        for day in UP.days:
            window.add(day)
        worth = [window.value(at(replace(UP, days=[[0] * 60]), number)) for number in NUMBERS]
        self.assertEqual(worth, [ginghamowl.value(at(UP, number).save()) for number in NUMBERS])
        self.assertEqual(len({valuation.figures.s2 for valuation in worth}), len(NUMBERS))


if __name__ == "__main__":
    unittest.main()
