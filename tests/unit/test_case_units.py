"""Numbers with units: every way to write one, and every way that could be taken for another number."""

import sys
import unittest
from fractions import Fraction

from tests import ROOT

sys.path[:0] = [str(ROOT / "tools")]
from casetext.fields import (AMOUNT_NUMBERS, FINE_RATE_NUMBER, FLOW_NUMBER, PEOPLE_NUMBERS, RATE_NUMBER, SHOCK_NUMBERS,
                             UFR_NUMBER)
from casetext.units import AGE, COUNT, FINE_RATE, MONEY, RATE, Bad, NotWhole, in_unit, shown, whole
from ginghamowl._shown import mean_percent, six_decimals

NUMBERS = {number.name: number for number in [UFR_NUMBER, RATE_NUMBER, FLOW_NUMBER, *AMOUNT_NUMBERS, *SHOCK_NUMBERS,
                                              *PEOPLE_NUMBERS]} | {"fine rate": FINE_RATE_NUMBER}


class Read(unittest.TestCase):
    def test_every_way(self):
        for name, value, texts in (
                ("ufr", 4_200, ["4.2 %", "4,2 %", "4.2%", " 4.20 % ", "+4.2 %", "4.200 %", "4,200 %", "4.2 percent", "420 bp",
                                "420bps", "420.0 bp", "420 basis points", "4200 steps", "4200 Steps", "4.2\u00a0%", "4,2 procent",
                                "4,2 Procent", "420 basispunten", "420basispunten"]),
                ("ufr", 0, ["0 %", "-0 %", "0 bp", "0 steps", "0,000 %"]),
                ("ufr", 1, ["0.001 %", "0.1 bp", "0.100 bp", "1 step", "1.0 steps"]),
                ("ufr", 10, ["1 bp", "1 basispunt"]),
                ("rate", -350, ["-0.35 %", "-0,350%", "\u22120.35 %", "-35 bp", "-350 steps"]),
                ("rate", 226, ["22.6 bp", "22,60 bp", "226.00 steps"]),
                ("fine rate", 22_600, ["22.600 bp", "22,6000 bp"]),
                ("fine rate", 12_000, ["12.000 bp", "12,000 bp"]),
                ("fine rate", 22_613, ["0.22613 %", "0,22613%", " 0.226130 percent", "22.613 bp", "22,613bps", "22.6130 bp"]),
                ("fine rate", -35_001, ["-0.35001 %", "\u221235.001 bp", "-35,001 basis points"]),
                ("fine rate", 1, ["0.00001 %", "0.001 bp", "+0,001 bp"]),
                ("fine rate", 1_000_000, ["10 %", "10.000 %", "1000 bp", "1000.000 bp", "1.000,00 bp"]),
                ("fine rate", 99_999, ["0.99999 %", "99.999 bp"]),
                ("up_shift", 710, ["0.71 %", "71 bp", "710 steps"]),
                ("spread", 1_240, ["1.24 %", "124 bp", "1240 steps"]),
                ("mature_fall", 250, ["25 %", "25 procent", "25,0 %", "25.000 %", "250 thousandths", "250thousandths", "250,0 thousandths"]),
                ("correlation", 1, ["0.1 %", "1 thousandth"]),
                ("pension_age", 795, ["66 years 3 months", "66 years, 3 months", "66 years and 3 months", "66years3months",
                                      "66.25 years", "66,25 years", "795 months", "66 YEARS 3 Months", "66 jaar 3 maanden",
                                      "66 jaar, 3 maanden", "66 jaar en 3 maanden", "66jaar3maanden", "66 Jaren en 3 Maanden",
                                      "66,25 jaar", "66.25 jaren", "795 maanden"]),
                ("mean_age", 12, ["1 year", "12 months", "1 year 0 months", "1 jaar", "12 maanden"]),
                ("mean_age", 1, ["1 month", "0 years 1 month", "1 maand", "0 jaar en 1 maand"]),
                ("duration", 53, ["5.3 years", "5,3 years", "5.30years", "5,3 jaar", "5.3 jaren"]),
                ("cash", 1_100_000, ["1100000 euros", "1100000euros", "1.100.000 euros", "1,100,000 euros", "1100000,00 euros",
                                     "1.100.000,00 euros", "1,100,000.0 euros", "€ 1100000", "1100000 €", "EUR 1.100.000"]),
                ("cash", 1_000, ["1.000,00 euros", "1,000.00 euros", "1000 EUR"])):
            for text in texts:
                self.assertEqual(whole(text, NUMBERS[name]), value, text)

    def test_default_unit(self):
        percent, basis_points, steps = RATE.units
        self.assertEqual([whole("5", RATE_NUMBER, unit) for unit in RATE.units], [5_000, 50, 5])
        self.assertEqual(whole("5 %", RATE_NUMBER, percent), 5_000)
        self.assertEqual(whole("5 percent", RATE_NUMBER, percent), 5_000)
        with self.assertRaisesRegex(Bad, 'is "5 bp", but the unit of its table is %'):
            whole("5 bp", RATE_NUMBER, percent)
        self.assertEqual([whole("5", FINE_RATE_NUMBER, unit) for unit in FINE_RATE.units], [500_000, 5_000])

    def test_fractions(self):
        """1 is 100 %, and a lone mark is a decimal mark."""
        for text, two, four in (("0.00381", 381, 38_100), ("0,00381", 381, 38_100), ("-0.01", -1_000, -100_000), ("0.1", 10_000, 1_000_000),
                                ("+0.100", 10_000, 1_000_000), ("0.010", 1_000, 100_000), ("0,050", 5_000, 500_000), ("0", 0, 0)):
            self.assertEqual(whole(text, RATE_NUMBER, RATE.fraction), two, text)
            self.assertEqual(whole(text, FINE_RATE_NUMBER, FINE_RATE.fraction), four, text)
        self.assertEqual(whole("0.0038123", FINE_RATE_NUMBER, FINE_RATE.fraction), 38_123)
        self.assertEqual([RATE.column_unit(word) for word in ("fraction", " Fractions", "fractie", "fracties")], [RATE.fraction] * 4)

    def test_wrong_fractions(self):
        limits, advice = "it must be -0.01 to 0.1 as a fraction, which is -1 % to 10 %", "write it as a fraction, such as 0.00226"
        for number, text, words in (
                (RATE_NUMBER, "0.10001", f"is 0.10001; {limits}"), (RATE_NUMBER, "-0.01001", f"is -0.01001; {limits}"),
                (RATE_NUMBER, "1.000", f"is 1.000; {limits}"), (FINE_RATE_NUMBER, "0.1000001", f"is 0.1000001; {limits}"),
                (RATE_NUMBER, "0.0038123", "is 0.0038123, which is no whole number of steps; the nearest are 0.00381 and 0.00382"),
                (FINE_RATE_NUMBER, "-0.00000005", "no whole number of hundredths of a step; the nearest are -0.0000001 and 0"),
                (RATE_NUMBER, "n/a", f'is "n/a"; {advice}'), (RATE_NUMBER, "0.003.810", f'is "0.003.810", which is no number; {advice}'),
                (RATE_NUMBER, "3.81e-3", f'is "3.81e-3"; {advice}'), (RATE_NUMBER, "0.00381 fraction", f'is "0.00381 fraction"; {advice}'),
                (FINE_RATE_NUMBER, "x", 'is "x"; write it as a fraction, such as 0.0022613'),
                (RATE_NUMBER, "0.381 %", 'is "0.381 %", but the unit of its table is fraction')):
            with self.assertRaises(Bad) as caught:
                whole(text, number, number.kind.fraction)
            self.assertIn(words, str(caught.exception), text)

    def test_fractions_are_of_columns(self):
        """A number in a text never carries the word, and the UFR and the shifts are no fractions."""
        for name in ("ufr", "rate", "up_shift", "spread", "mature_fall"):
            self.refused(name, "0.042 fraction", 'is "0.042 fraction"; write it in %')
        self.assertIsNone(RATE.unit("fraction"))
        self.assertNotIn("fraction", UFR_NUMBER.advice)

    def refused(self, name, text, words):
        with self.assertRaises(Bad) as caught:
            whole(text, NUMBERS[name])
        self.assertIn(words, str(caught.exception), text)

    def test_without_a_unit(self):
        self.refused("mature_fall", "25", 'is 25 without a unit; write it in % or thousandths, such as "25 %"')
        self.refused("ufr", "0", 'is 0 without a unit; write it in %, bp or steps, such as "4.2 %"')
        self.refused("duration", "5,3", 'is 5,3 without a unit; write it in years, such as "5.3 years"')
        self.refused("mean_age", "45", 'write it in years or months, such as "45 years 11 months"')
        self.refused("cash", "1100000", 'write whole euros, such as 1100000 or "1100000 euros"')
        self.refused("fine rate", "0.22613", 'is 0.22613 without a unit; write it in % or bp, such as "0.22613 %"')

    def test_no_steps_of_four_bytes(self):
        """They could be steps of 0.00001 or of 0.0000001."""
        for text in ("22613 steps", "226.13 steps", "1 step", "0 steps"):
            self.refused("fine rate", text, f'is "{text}"; write it in % or bp, such as "0.22613 %"')
        self.assertIsNone(FINE_RATE.unit("steps"))

    def test_two_ways(self):
        """The error says what to write: each reading that is a whole number of the file's own unit."""
        for name, texts in (
                ("cash", {"1.000 euros": "1 euro or 1000 euros", "€ 1,000": "1 euro or 1000 euros", "1.0000 EUR": "1 euro or 10000 euros",
                          "31415.927 euros": "31415927 euros or another whole number of euros"}),
                ("ufr", {"1.000 steps": "1 step or 1000 steps", "2,000 steps": "2 steps or 2000 steps", "1.000 bp": "1 bp or 1000 bp",
                         "1,200 bp": "1.2 bp or 1200 bp", "12.000 basis points": "12 bp or 12000 bp",
                         "12.000 steps": "12 steps or 12000 steps", "01.000 bp": "1 bp or 1000 bp"}),
                ("rate", {"1,000 bp": "1 bp or 1000 bp", "-1.000 bp": "-1 bp or -1000 bp", "1.000 steps": "1 step or 1000 steps",
                          "9.999 steps": "9999 steps or another whole number of steps", "10,000 steps": "10 steps or 10000 steps",
                          "1.250 steps": "1250 steps or another whole number of steps", "22.600 bp": "22.6 bp or 22600 bp"}),
                ("fine rate", {"1.000 bp": "1 bp or 1000 bp", "+1,000 bp": "1 bp or 1000 bp", "\u22121.000 bp": "-1 bp or -1000 bp"}),
                ("correlation", {"1,000 thousandths": "1 thousandth or 1000 thousandths"}),
                ("mean_age", {"1.000 months": "1 month or 1000 months"})):
            for text, forms in texts.items():
                self.refused(name, text, f'is "{text}", which could be read in two ways; write {forms}')

    def test_two_ways_without_a_unit(self):
        """Where the unit comes from elsewhere, what is to be written has none either; it is read as what it says."""
        percent, basis_points, steps = RATE.units
        for text, unit, decimal, thousands in (("1.000", basis_points, "1", "1000"), ("-22,600", basis_points, "-22.6", "-22600"),
                                               ("12.000", steps, "12", "12000")):
            with self.assertRaises(Bad) as caught:
                whole(text, RATE_NUMBER, unit)
            self.assertEqual(str(caught.exception), f'is "{text}", which could be read in two ways; write {decimal} or {thousands}')
            self.assertEqual(whole(decimal, RATE_NUMBER, unit), unit.size * Fraction(decimal))
        with self.assertRaisesRegex(Bad, 'is "1.000", which could be read in two ways; write 1 or 1000$'):
            whole("1.000", FINE_RATE_NUMBER, FINE_RATE.units[1])

    def test_limits_clear_no_mark_in_two_bytes(self):
        """12,000 steps and 1,200 bp are out of limits, as a slip is: they are not taken for 12 steps and 1.2 bp."""
        for text in ("12.000 steps", "12,000 steps", "-12.000 steps", "226.000 steps", "10.0000 steps", "1.200 bp", "1,200 bp", "-1.200 bp",
                     "22.600 bp", "1000.000 bp", "12.3000 bp"):
            self.refused("rate", text, f'is "{text}", which could be read in two ways')
        for text in ("10.001 steps", "1.201 bp", "1,250 bp", "-35.001 bp"):
            self.refused("rate", text, f"is {text}, which is no whole number of steps; the nearest are ")
        self.refused("rate", "1000.001 bp", "is 1000.001 bp; it must be -100 bp to 1000 bp")
        self.refused("rate", "10001.000 steps", "is 10001.000 steps; it must be -1000 steps to 10000 steps")

    def test_no_number_or_unit(self):
        for name, texts in (("ufr", ["abc", "%", "4..2 %", "4.2.1 %", "1.234,5 %", ".5 %", "5. %", "1e3 %", "nan %", "4 2 %",
                                     "4_2 %", "- 4 %", "--4 %", "4.2 % %", "4.2 promille", "4.2 thousandths", "4.2 years",
                                     "\u0664 %", "0x10 %", "9" * 41 + " %", "9" * 5_000 + " %", "1 % 2 %"]),
                            ("mature_fall", ["25 bp", "250 steps", "25 promille"]),
                            ("duration", ["5 years 3 months", "63 months", "53 tenths", "63 maanden", "5 jaar 3 maanden"]),
                            ("mean_age", ["66 jaar 12 maanden", "66 jaar of 3 maanden", "66 jaaren", "3 maanden 66 jaar",
                                          "66 years 12 months", "66.5 years 3 months", "3 months 66 years", "66y", "66 % "]),
                            ("cash", ["1 100 000 euros", "1.00.000 euros", "1.100,000 euros", "1.100.00 euros", "5 dollars",
                                      "1.100.000.00 euros", "0.100.000 euros", "1.100,00.00 euros", "€", "1,- euros"])):
            for text in texts:
                with self.assertRaises(Bad, msg=text) as caught:
                    whole(text, NUMBERS[name])
                self.assertLess(len(str(caught.exception)), 200)

    def test_never_rounded(self):
        self.refused("mature_fall", "0.25 %", "is 0.25 %, which is no whole number of thousandths; "
                                              "the nearest are 0.2 % and 0.3 %")
        self.refused("rate", "-0.0005 %", "no whole number of steps; the nearest are -0.001 % and 0 %")
        self.refused("rate", "12.34 bp", "the nearest are 12.3 bp and 12.4 bp")
        self.refused("rate", "1.5 steps", "the nearest are 1 step and 2 steps")
        self.refused("pension_age", "66.3 years", "the nearest are 66 years 3 months and 66 years 4 months")
        self.refused("duration", "5.25 years", "no whole number of tenths of a year; the nearest are 5.2 years and 5.3 years")
        self.refused("cash", "1,50 euros", "the nearest are 1 euro and 2 euros")
        self.refused("ufr", "0." + "0" * 30 + "1 %", "the nearest are 0 % and 0.001 %")
        self.refused("ufr", "12.3456 bp", "the nearest are 12.3 bp and 12.4 bp")
        self.refused("rate", "22.613 bp", "is 22.613 bp, which is no whole number of steps; the nearest are 22.6 bp and 22.7 bp")
        self.refused("rate", "10.001 steps", "the nearest are 10 steps and 11 steps")
        self.refused("fine rate", "0.226135 %", "is 0.226135 %, which is no whole number of hundredths of a step; "
                                                "the nearest are 0.22613 % and 0.22614 %")
        self.refused("fine rate", "-0.000005 %", "the nearest are -0.00001 % and 0 %")
        self.refused("fine rate", "22.6135 bp", "the nearest are 22.613 bp and 22.614 bp")

    def test_what_is_not_whole(self):
        for text, value in (("0.2255 %", Fraction(451, 2)), ("22.613 bp", Fraction(22_613, 100)), ("1.5 steps", Fraction(3, 2))):
            with self.assertRaises(NotWhole) as caught:
                whole(text, RATE_NUMBER)
            self.assertEqual(caught.exception.value, value)
        for text in ("10.0001 %", "1.000 bp", "22.600 bp", "0.2255"):  # out of limits, unclear, or without a unit
            with self.assertRaises(Bad) as caught:
                whole(text, RATE_NUMBER)
            self.assertNotIsInstance(caught.exception, NotWhole)

    def test_limits(self):
        self.refused("ufr", "5.001 %", "is 5.001 %; it must be 0 % to 5 %")
        self.refused("ufr", "501 bp", "is 501 bp; it must be 0 bp to 500 bp")
        self.refused("up_shift", "71 %", "it must be 0 % to 1 %")
        self.refused("mature_fall", "-25 %", "it must be 0 % to 100 %")
        self.refused("mean_age", "551 years", "it must be 0 years to 100 years")
        self.refused("mean_age", "1201 months", "it must be 0 months to 1200 months")
        self.refused("duration", "53 years", "it must be 0 years to 50 years")
        self.refused("rate", "-1.001 %", "it must be -1 % to 10 %")
        self.refused("fine rate", "-1.00001 %", "is -1.00001 %; it must be -1 % to 10 %")
        self.refused("fine rate", "10.00001 %", "is 10.00001 %; it must be -1 % to 10 %")
        self.refused("fine rate", "1000.001 bp", "is 1000.001 bp; it must be -100 bp to 1000 bp")
        self.refused("fine rate", "1.000.000 bp", "it must be -100 bp to 1000 bp")
        self.refused("cash", "100000000001 euros", "it must be 0 euros to 100000000000 euros")
        for number in NUMBERS.values():
            for unit in number.kind.units:
                for end in (number.least, number.most):
                    self.assertEqual(whole(in_unit(end, unit), number), end)

    def test_shown_is_read(self):
        """What is shown, in the usual unit and in each other, is read as the same number."""
        for number in NUMBERS.values():
            for value in range(number.least, number.most, max(1, (number.most - number.least) // 977)):
                for unit in number.kind.units:
                    self.assertEqual(whole(in_unit(value, unit), number), value)
                if number.kind not in (COUNT, MONEY):
                    self.assertEqual(whole(shown(value, number.kind), number), value)
        self.assertEqual([shown(months, AGE) for months in (0, 1, 12, 13, 795)],
                         ["0 years", "1 month", "1 year", "1 year 1 month", "66 years 3 months"])

    def test_six_decimals(self):
        self.assertEqual([six_decimals(Fraction(*pair)) for pair in ((1, 8), (-1, 3), (12, 1), (-5, 10 ** 7))],
                         ["0.125", "about -0.333333", "12", "about 0"])

    def test_mean_percent(self):
        """Eight decimals only where six would show a whole step."""
        self.assertEqual([mean_percent(Fraction(*pair)) for pair in ((8_000, 1), (8_001, 1), (560_001, 70), (1, 3), (22_613, 100))],
                         ["8 %", "8.001 %", "about 8.000014 %", "about 0.000333 %", "0.22613 %"])
        for hundredths in (1, -1):
            near = mean_percent(8_000 + Fraction(hundredths, 7_000))
            self.assertEqual(near, {1: "about 8.00000014 %", -1: "about 7.99999986 %"}[hundredths])


if __name__ == "__main__":
    unittest.main()
