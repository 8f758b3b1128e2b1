"""Cases in TOML: all faults at once by their keys, the empty case, and what decode writes."""

import re
import sys
import unittest
from dataclasses import replace

from tests import ROOT

sys.path[:0] = [str(ROOT / "tools")]
from casetext import Fault, RefusedText, Wrong, bytes_of, from_toml, read, refusal, template, to_toml, write
from casetext.parsing import KEYS, MOST_SHOWN

FUND = (ROOT / "cases" / "fund.case").read_bytes()
UP = (ROOT / "cases" / "up.case").read_bytes()
TEXT = to_toml(read(UP))
FOUR = replace(read(UP), rate_bytes=4, days=[[100 * rate + 13 for rate in day] for day in read(UP).days])
FOUR_TEXT = to_toml(FOUR)


class Texts(unittest.TestCase):
    def changed(self, *pairs, text=TEXT):
        for old, new in pairs:
            self.assertEqual(text.count(old), 1, old)
            text = text.replace(old, new)
        return text

    def faults(self, text):
        with self.assertRaises(Wrong) as caught:
            from_toml(text)
        for fault in caught.exception.faults:
            self.assertNotIn("\n", fault)
            self.assertTrue(fault.isprintable(), fault)
        return caught.exception.faults

    def test_units_said_by_people(self):
        """decode writes no bare number but euros and heads, and none in the file's own small units."""
        text = to_toml(read(FUND))
        for line in ('ufr = "4.2 %"', 'unit = "%"', 'up_shift = "0.71 %"', 'mature_fall = "25 %"', 'spread_rise = "40 %"',
                     'correlation = "50 %"', 'spread = "1.24 %"', 'duration = "5.3 years"', 'pension_age = "66 years"',
                     'mean_age = "45 years 11 months"', "heads = 4180", "[amounts]  # in euros", "cash = 4850000"):
            self.assertIn("\n" + line + "\n", text)
        self.assertNotRegex(text, "steps|thousandths|tenths")

    def test_equity_correlation(self):
        """Written exactly where the file has the field, with a comment that tells it from the other correlation; left out it is absent."""
        comment = "  # between the four equity and property classes, in the field of bit 8"
        without = to_toml(replace(read(UP), equity_correlation=None))
        self.assertNotIn("equity_correlation", without)
        self.assertIsNone(from_toml(without).equity_correlation)
        for correlation, said in ((0, "0 %"), (1, "0.1 %"), (250, "25 %"), (999, "99.9 %"), (1_000, "100 %")):
            for case in (read(UP), FOUR):
                case = replace(case, equity_correlation=correlation)
                text = to_toml(case)
                self.assertIn(f'\nduration = "7.3 years"\nequity_correlation = "{said}"{comment}\n\n[people]\n', text)
                self.assertEqual((from_toml(text), read(write(from_toml(text)))), (case, case))

    def with_correlation(self, value):
        without = to_toml(replace(read(UP), equity_correlation=None))
        return self.changed(("[people]", f"equity_correlation = {value}\n[people]"), text=without)

    def test_equity_correlation_in_other_units(self):
        for value, thousandths in (('"50 %"', 500), ('"500 thousandths"', 500), ('"37,5 procent"', 375), ('"1 thousandth"', 1),
                                   ('"0 %"', 0)):
            self.assertEqual(from_toml(self.with_correlation(value)).equity_correlation, thousandths)

    def test_faults_of_the_equity_correlation(self):
        advice = 'write it in % or thousandths, such as "50 %"'
        for value, said in (("50", f"is 50 without a unit; {advice}"), ("0", f"is 0 without a unit; {advice}"),
                            ("true", f"is true; {advice}"), ('"100.1 %"', "is 100.1 %; it must be 0 % to 100 %"),
                            ('"-0.1 %"', "is -0.1 %; it must be 0 % to 100 %"),
                            ('"0.05 %"', "is 0.05 %, which is no whole number of thousandths; the nearest are 0 % and 0.1 %"),
                            ('""', f"is empty; {advice}, or delete the line: without it the four classes fall together, which is 100 %")):
            self.assertEqual(self.faults(self.with_correlation(value)), [f"shocks.equity_correlation {said}"])
        for key in ("equity_corelation", "equity_correlaton", "equitycorrelation"):
            [fault] = self.faults(self.with_correlation('"50 %"').replace("equity_correlation", key))
            self.assertEqual(fault, f"shocks.{key} is no key of a case; did you mean shocks.equity_correlation?")
        [fault] = self.faults('equity_correlation = "50 %"\n' + to_toml(replace(read(UP), equity_correlation=None)))
        self.assertEqual(fault, "equity_correlation is no key of a case; did you mean shocks.equity_correlation?")

    def test_four_bytes(self):
        """decode says the form and writes each decimal of a rate; nothing else of the text is another."""
        days = lambda text: text[text.index("rates = ["):text.index("[flows]")]
        two = "\n# rates to 0.001 %, in the days field of bit 1\n"
        four = "\nrate_bytes = 4  # rates to 0.00001 %, in the days field of bit 7\n"
        self.assertIn("    0.20613, 0.22513, ", FOUR_TEXT)
        self.assertEqual((TEXT.count(two), FOUR_TEXT.count(four)), (1, 1))
        self.assertEqual(FOUR_TEXT.replace(four, two).replace(days(FOUR_TEXT), days(TEXT)), TEXT)
        self.assertEqual(from_toml(FOUR_TEXT), FOUR)
        self.assertEqual(from_toml(TEXT.replace("[days]", "[days]\nrate_bytes = 2")), read(UP))
        in_four = replace(FOUR, days=[[100 * rate for rate in day] for day in read(UP).days])
        self.assertEqual(from_toml(TEXT.replace("[days]", "[days]\nrate_bytes = 4")), in_four)

    def test_four_bytes_in_other_units(self):
        start, end = FOUR_TEXT.index('unit = "%"'), FOUR_TEXT.index("[flows]")
        rates = {"bp": [[f"{rate / 1_000:.3f} bp" for rate in day] for day in FOUR.days],
                 "percent": [[f"{rate / 100_000:.5f} %" for rate in day] for day in FOUR.days]}
        for unit, days in rates.items():
            for keys in ("", f'unit = "{unit}"\n'):
                self.assertEqual(from_toml(f"{FOUR_TEXT[:start]}{keys}rates = {days}\n{FOUR_TEXT[end:]}"), FOUR)
        days = str(rates["bp"]).replace(" bp", "").replace("'", "")
        self.assertEqual(from_toml(f'{FOUR_TEXT[:start]}unit = "bp"\nrates = {days}\n{FOUR_TEXT[end:]}'), FOUR)

    def test_faults_of_four_bytes(self):
        key, first = "rate_bytes = 4", "0.20613, 0.22513,"
        advice = "; write 4 for rates to 0.00001 %, or 2 for rates to 0.001 %, as without the key"
        for old, new, words in (
                *((key, f"rate_bytes = {value}", f"days.rate_bytes is {said}{advice}") for value, said in (
                    ("3", "3"), ("0", "0"), ("-4", "-4"), ("7", "7"), ("4.0", "4.0"), ('"4"', '"4"'), ('""', '""'), ("true", "true"),
                    ("[4]", "no number"), ("0x" + "f" * 9_000, "0x" + "f" * 38 + "..."))),
                (first, "0.20613, 0.225135,", "days.rates, term 2 of day 1, is 0.225135, which is no whole number of hundredths of a step; "
                                              "the nearest are 0.22513 % and 0.22514 %"),
                (first, "0.20613, 10.00001,", "days.rates, term 2 of day 1, is 10.00001; it must be -1 % to 10 %"),
                (first, '0.20613, "22.513 bp",', 'is "22.513 bp", but the unit of its table is %'),
                (first, '0.20613, "225.13 steps",', 'is "225.13 steps"; write it in % or bp, such as "0.22613 %"'),
                ('unit = "%"', 'unit = "steps"', 'days.unit is "steps"; write unit = "%", "bp" or "fraction", or delete it where each rate'),
                ('unit = "%"', "", 'is 0.20613 without a unit, and so are 179 other rates; write unit = "%", "bp" or "fraction" in [days], '
                                   'or each rate with its own, such as "0.22613 %"')):
            faults = self.faults(self.changed((old, new), text=FOUR_TEXT))
            self.assertEqual(len(faults), 1, faults)
            self.assertIn(words, faults[0])

    def test_more_decimals_than_two_bytes_hold(self):
        """One fault for all rates that four bytes hold, which says how to have them; those that have still more decimals are told apart."""
        advice = "; for rates to 0.00001 % write rate_bytes = 4 in [days], and the rates in % or bp"
        nearest = "which is no whole number of steps; the nearest are 0.225 % and 0.226 %"
        for rates, told in (("0.2255, 0.2", f"0.2255, {nearest}{advice}"), ("0.22513, 0.2", f"0.22513, {nearest}{advice}"),
                            ("0.22513, 0.20001", f"0.22513, {nearest}; 1 other rate has such decimals too{advice}"),
                            ("0.225135, 0.2", f"0.225135, {nearest}"), ("0.2250, 0.20", None)):
            text = self.changed(("0.206, 0.225, 0.244,", f"0.206, {rates},"))
            if told:
                self.assertEqual(self.faults(text), [f"days.rates, term 2 of day 1, is {told}"])
            else:
                self.assertEqual(from_toml(text).days[0][:3], [206, 225, 200])
        faults = self.faults(self.changed(("0.206, 0.225, 0.244,", "0.20651, 0.225135, 11,")))
        self.assertEqual([fault.split(" is ")[0] for fault in faults], [f"days.rates, term {term} of day 1," for term in (1, 2, 3)])
        self.assertEqual([advice in fault for fault in faults], [True, False, False])
        faults = self.faults(FOUR_TEXT.replace("rate_bytes = 4", ""))
        self.assertEqual(faults, ["days.rates, term 1 of day 1, is 0.20613, which is no whole number of steps; the nearest are 0.206 % "
                                  f"and 0.207 %; 179 other rates have such decimals too{advice}"])
        for rate in ("22.513 bp", "225.13 steps", "225,1 steps"):
            days = [[rate] + ["0.2 %"] * 59]
            [fault] = self.faults(re.sub(r'unit = "%"\nrates = \[.*?\n\]', f"rates = {days}", TEXT, flags=re.DOTALL))
            self.assertTrue(fault.startswith(f"days.rates, term 1 of day 1, is {rate}, which is no whole number of steps"), fault)
            self.assertTrue(fault.endswith(advice), fault)

    def with_rates(self, rates, keys, text=TEXT):
        return re.sub(r'unit = "%"\nrates = \[.*?\n\]', f"{keys}\nrates = {[rates]}", text, flags=re.DOTALL)

    def test_fractions_are_asked_about_first(self):
        """Where every rate could be a fraction, and only then; the rates that are told are one fault."""
        small, then = "only if they really are that small, write rate_bytes = 4 in [days], and the rates in % or bp", 'Then write unit = "fraction"'
        start = "days.rates, term 1 of day 1, is 0.00381"
        [fault] = self.faults(self.with_rates(["0.00381", "0,1", "-0.01", "0"] * 15, 'unit = "%"'))
        self.assertEqual(fault, f"{start}, which is no whole number of steps; the nearest are 0.003 % and 0.004 %; 14 other rates have such "
                                f"decimals too; are they fractions, 0.00381 for 0.381 %? {then} in [days]; {small}")
        [fault] = self.faults(self.with_rates(["0.00381 %"] + ["0.1%"] * 59, ""))
        self.assertIn(f"are they fractions, 0.00381 for 0.381 %? {then} in [days], and the rates without %; {small}", fault)
        for unit in ("bp", "steps"):  # bare rates, which the table's unit makes smaller still
            [fault] = self.faults(self.with_rates(["0.00381"] * 60, f'unit = "{unit}"'))
            self.assertTrue(fault.endswith(f"; 59 other rates have such decimals too; are they fractions, 0.00381 for 0.381 %? {then} in [days]"))

    def test_fractions_of_more_decimals_are_asked_about(self):
        """In four bytes too; rate_bytes = 4 is not named where it is there or does not help."""
        for text, number in ((TEXT, "0.003812"), (FOUR_TEXT, "0.0038123")):
            [fault] = self.faults(self.with_rates([number] * 60, 'unit = "%"', text))
            self.assertTrue(fault.endswith(f'are they fractions, {number} for {"0.3812" if text is TEXT else "0.38123"} %? '
                                           'Then write unit = "fraction" in [days]'), fault)

    def test_fractions_beside_other_faults(self):
        """What is no number is told by itself, and does not keep the question away."""
        faults = self.faults(self.with_rates(["0.00381"] * 58 + ["n/a", "9" * 5_000], 'unit = "%"'))
        self.assertEqual([fault.count("are they fractions") for fault in faults], [1, 0, 0])

    def test_rates_that_cannot_be_fractions(self):
        advice = "; for rates to 0.00001 % write rate_bytes = 4 in [days], and the rates in % or bp"
        for other in ("2.33145", "0.101", "-0.011", "11"):
            fault = self.faults(self.with_rates(["0.00381"] * 59 + [other], 'unit = "%"'))[0]
            self.assertTrue(fault.endswith(advice), fault)
            self.assertNotIn("fraction", fault)
        [fault] = self.faults(self.with_rates(["0.00381 %"] * 59 + ["1 bp"], ""))
        self.assertNotIn("fraction", fault)
        [fault] = self.faults(self.with_rates(["0.0038123"] * 60, 'unit = "fraction"'))
        self.assertTrue(fault.endswith("; 59 other rates have such decimals too; for rates to 0.00001 %, which is 0.0000001 as a fraction, "
                                       "write rate_bytes = 4 in [days]"), fault)
        self.assertEqual(from_toml(self.with_rates(["0.0038123"] * 60, 'unit = "fraction"', FOUR_TEXT)).days, [[38_123] * 60])

    def with_first(self, rate, unit, text):
        """The text with flat rates of 0.2 % but for the first, which is as given; without a unit each carries its own."""
        rest = {None: "0.2 %", "bp": "20", "steps": "200"}[unit]
        keys = f'unit = "{unit}"\n' if unit else ""
        return re.sub(r'unit = "%"\nrates = \[.*?\n\]', f"{keys}rates = {[[rate] + [rest] * 59]}", text, flags=re.DOTALL)

    def test_a_lone_mark_in_two_bytes(self):
        """No rate is accepted because its other reading is out of limits."""
        unclear, finer = "could be read in two ways", "no whole number of steps"
        for number, unit, fault in (("12.000", "steps", unclear), ("226.000", "steps", unclear), ("1.200", "bp", unclear),
                                    ("22.600", "bp", unclear), ("1.000", "bp", unclear), ("10.001", "steps", finer), ("22.613", "bp", finer)):
            for rate, table in ((number, unit), (number.replace(".", ","), unit), (f"{number} {unit}", unit), (f"{number} {unit}", None)):
                [found] = self.faults(self.with_first(rate, table, TEXT))
                self.assertTrue(found.startswith("days.rates, term 1 of day 1, is "), found)
                self.assertIn(fault, found)
            [found] = self.faults(self.with_first(number, unit, TEXT).replace(f"'{number}'", number))  # as a bare number of the text
            self.assertIn(fault, found)

    def test_a_lone_mark_in_four_bytes(self):
        """Three decimals in bp are usual, and only 1.000 could be a rate in thousands too."""
        for number, value in (("22.613", 22_613), ("22.600", 22_600), ("12.000", 12_000), ("1.200", 1_200), ("1.001", 1_001)):
            for rate, table in ((number, "bp"), (number.replace(".", ","), "bp"), (f"{number} bp", None)):
                self.assertEqual(from_toml(self.with_first(rate, table, FOUR_TEXT)).days, [[value] + [20_000] * 59])
        for rate, table, forms in (("1.000", "bp", "1 or 1000"), ("1.000 bp", "bp", "1 bp or 1000 bp"),
                                   ("1.000 bp", None, "1 bp or 1000 bp")):
            self.assertEqual(self.faults(self.with_first(rate, table, FOUR_TEXT)),
                             [f'days.rates, term 1 of day 1, is "{rate}", which could be read in two ways; write {forms}'])
        self.assertEqual(from_toml(self.with_first("1", "bp", FOUR_TEXT)).days[0][0], 1_000)

    def test_only_rates_are_finer(self):
        """The UFR, the shifts and the spread keep whole steps, also in a text of four bytes."""
        for old, new in (('ufr = "4.321 %"', 'ufr = "4.32101 %"'), ('up_shift = "0.32 %"', 'up_shift = "0.32001 %"'),
                         ('down_shift = "0.18 %"', 'down_shift = "0.18001 %"'), ('spread = "2.345 %"', 'spread = "2.34501 %"')):
            [fault] = self.faults(self.changed((old, new), text=FOUR_TEXT))
            self.assertIn("which is no whole number of steps", fault)
            self.assertNotIn("rate_bytes", fault)

    def test_refusal_6_of_four_bytes(self):
        [fault] = self.faults(re.sub(r"rates = \[.*?\n\]", f"rates = [{[-0.00001] + [6] * 59}]".replace("-1e-05", "-0.00001"),
                                     FOUR_TEXT, flags=re.DOTALL))
        self.assertIn("days: refused, 6: the one-year forward rate from year 1 to year 2 is 12.00001 %; it must be -2 % to 12 %", fault)
        self.assertIn("is 1,200,001 hundredths of a step; it must be -200,000 to 1,200,000, for n = 1", fault)

    def test_other_units(self):
        text = self.changed(('"4.321 %"', '"432,1 bp"'), ('"0.32 %"', '"320 steps"'), ('"25.1 %"', '"251 thousandths"'),
                            ('"7.3 years"', '"7,3years"'), ('"45 years 1 month"', '"541 months"'),
                            ("cash = 111213", 'cash = "111213 euros"'), ("31415927,", '"31.415.927 euros",'))
        self.assertEqual(write(from_toml(text)), UP)
        self.assertEqual(write(from_toml("\ufeff" + TEXT.replace("\n", "\r\n"))), UP)

    def test_thousands_in_a_list(self):
        """Texts in quotes tell of each other as the cells of a sheet do; a bare number of thousands has no marks, so that nothing is told."""
        flows = lambda *texts: self.changed(("31415927, 27182818, 16180339,", ", ".join(texts)))
        self.assertEqual(from_toml(flows('"8.651.000 euros"', '"958.258 euros"', "999", "0")).pension, [8_651_000, 958_258, 999, 0])
        for others in (['"865.100,00 euros"'], ['"8.651.000 euros"', "1000"], ['"8.651.000 euros"', "1_000_000"], ['"8.651.000 euros"', '"1000 euros"']):
            [fault] = self.faults(flows(*others, '"958.258 euros"'))
            self.assertIn('is "958.258 euros", which could be read in two ways; write 958258 euros or another whole number of euros', fault)
        [fault] = self.faults(self.changed(("cash = 111213", 'cash = "111.213 euros"'), text=flows('"8.651.000 euros"', '"958.258 euros"')))
        self.assertTrue(fault.startswith('amounts.cash is "111.213 euros", which could be read in two ways'), fault)

    def test_one_fault(self):
        for old, new, words in (
                ('ufr = "4.321 %"', "ufr = 4321", 'ufr is 4321 without a unit; write it in %, bp or steps, such as "4.2 %"'),
                ('ufr = "4.321 %"', "ufr = 4.2", "ufr is 4.2 without a unit"),
                ('ufr = "4.321 %"', "ufr = 0", "ufr is 0 without a unit"),
                ('ufr = "4.321 %"', "ufr = nan", "ufr is nan without a unit"),
                ('ufr = "4.321 %"', "ufr = 1e999999999", "ufr is 1e999999999 without a unit"),
                ('ufr = "4.321 %"', "ufr = 0x" + "f" * 9_000, "without a unit"),
                ('ufr = "4.321 %"', "ufr = true", "ufr is true; write it in"),
                ('ufr = "4.321 %"', "ufr = 2025-01-02", "ufr is no number; write it in"),
                ('ufr = "4.321 %"', "ufr = [4.2]", "ufr is no number; write it in"),
                ('ufr = "4.321 %"', "ufr", "this is no TOML"),
                ('ufr = "4.321 %"', "ufr = " + "9" * 5_000, "this is no TOML"),
                ('ufr = "4.321 %"', "ufr = " + "[" * 50_000, "this is no TOML: it is nested too deep"),
                ('ufr = "4.321 %"', "ufr = \"\\u001b[31m\\n %\"", 'ufr is "\\x1b[31m\\n %"; write it in'),
                ('ufr = "4.321 %"', '"" = 1\nufr = "4 %"', " is no key of a case"),
                ("heads = 1237", "heads = 0", "people.heads is 0; it must be 1 to 1,000,000"),
                ("heads = 1237", "heads = 1.237", "people.heads is 1.237; write a whole number without a unit, such as 4180"),
                ("heads = 1237", 'heads = "1237 people"', 'people.heads is "1237 people"; write a whole number'),
                ("heads = 1237", "heads = false", "people.heads is false; write a whole number"),
                ("heads = 1237", "", "people.heads is missing; write a whole number without a unit"),
                ("cash = 111213", "cash = 100000000001", "amounts.cash is 100,000,000,001; it must be 0 euros to 100,000,000,000"),
                ("cash = 111213", "cash = -1", "amounts.cash is -1; it must be 0 euros"),
                ("cash = 111213", "cash = 111.213", "amounts.cash is 111.213; write whole euros"),
                ("cash = 111213", 'cash = "111213"', "amounts.cash is 111213 without a unit; write whole euros"),
                ("cash = 111213", 'cash = "111.213 euros"', "amounts.cash is \"111.213 euros\", which could be read in two ways; "
                                                           "write 111213 euros or another whole number of euros"),
                ("cash = 111213", "cash = 0x" + "f" * 9_000, "amounts.cash is 0xfff"),
                ("31415927", "100000001", "flows.pension, term 1, is 100,000,001; it must be 0 euros to 100,000,000 euros"),
                ("31415927", "31415.927", "flows.pension, term 1, is 31415.927; write whole euros"),
                ("31415927", "[31415927]", "flows.pension, term 1, is no number"),
                ('unit = "%"', 'unit = "promille"', 'days.unit is "promille"; write unit = "%", "bp", "steps" or "fraction"'),
                ('unit = "%"', "unit = 1", "days.unit is no text"),
                ('unit = "%"', "", 'days.rates, term 1 of day 1, is 0.206 without a unit, and so are 179 other rates; '
                                   'write unit = "%", "bp", "steps" or "fraction" in [days], or each rate with its own, such as "0.226 %"'),
                ('unit = "%"', 'unit = "%"\nlines = "days"', "days.lines is of a sheet; it goes with days.csv only"),
                ('unit = "%"', 'unit = "%"\ncsv = "x"', "days.rates and days.csv are both there; write one of them"),
                ("0.206, 0.225,", "0.225,", "days.rates, day 1, has 59 rates; it must be a list of 60"),
                ("0.206, 0.225,", '0.206, "22.5 bp",', 'term 2 of day 1, is "22.5 bp", but the unit of its table is %'),
                ("0.206, 0.225,", "0.206, 0.2255,", "is 0.2255, which is no whole number of steps; "
                                                    "the nearest are 0.225 % and 0.226 %"),
                ("0.206, 0.225,", "0.206, nan,", 'days.rates, term 2 of day 1, is "nan"'),
                ("0.206, 0.225,", "0.206, 1e9,", 'days.rates, term 2 of day 1, is "1e9"'),
                ("0.206, 0.225,", "0.206, [],", "days.rates, term 2 of day 1, is"),
                ("0.206, 0.225,", "0.206, -1.001,", "days.rates, term 2 of day 1, is -1.001; it must be -1 % to 10 %")):
            faults = self.faults(self.changed((old, new)))
            self.assertEqual(len(faults), 1, faults)
            self.assertIn(words, faults[0])

    def test_rates_with_their_own_units(self):
        text = TEXT.replace('unit = "%"\n', "").replace("[flows]", "@", 1)
        days, rest = text.split("@")
        days = days[:60] + re.sub(r"-?\d+\.?\d*(?=,)", lambda found: f'"{found[0]} %"', days[60:])
        self.assertEqual(write(from_toml(days + "[flows]" + rest)), UP)

    def test_rates_in_other_units(self):
        case = read(UP)
        start, end = TEXT.index('unit = "%"'), TEXT.index("[flows]")
        for unit, size in (("steps", 1), ("bp", 10), ("percent", 1_000)):
            days = [[rate // size if rate % size == 0 else rate / size for rate in day] for day in case.days]
            self.assertEqual(from_toml(f'{TEXT[:start]}unit = "{unit}"\nrates = {days}\n{TEXT[end:]}'), case)

    def test_rates_as_fractions(self):
        for text, case, decimals in ((TEXT, read(UP), 5), (FOUR_TEXT, FOUR, 7)):
            start, end = text.index('unit = "%"'), text.index("[flows]")
            for form in ("{}", '"{}"'):
                days = ", ".join("[" + ", ".join(form.format(f"{rate / 10 ** decimals:.{decimals}f}") for rate in day) + "]"
                                 for day in case.days)
                self.assertEqual(from_toml(f'{text[:start]}unit = "fraction"\nrates = [{days}]\n{text[end:]}'), case)
                other = days.replace(form.format(f"{case.days[0][0] / 10 ** decimals:.{decimals}f}"), '"0.206 %"', 1)
                self.assertEqual(self.faults(f'{text[:start]}unit = "fraction"\nrates = [{other}]\n{text[end:]}'),
                                 ['days.rates, term 1 of day 1, is "0.206 %", but the unit of its table is fraction'])

    def test_dutch_words(self):
        text = self.changed(('"4.321 %"', '"4,321 procent"'), ('"0.32 %"', '"32 basispunten"'), ('"7.3 years"', '"7,3 jaar"'),
                            ('"67 years"', '"67 jaar"'), ('"45 years 1 month"', '"45 jaar en 1 maand"'), ('unit = "%"', 'unit = "procent"'))
        self.assertEqual(write(from_toml(text)), UP)

    def test_all_faults_at_once(self):
        faults = self.faults(self.changed(
            ('ufr = "4.321 %"', "ufr = 4.2"), ('mature_fall = "25.1 %"', "mature_fall = 25"),
            ("\ncorrelation =", "\ncorelation ="), ('duration = "7.3 years"', 'duration = "73 months"'), ("heads = 1237", ""),
            ('pension_age = "67 years"', 'pension_age = "67"'), ("cash = 111213", "cash = 1.0"), ("27182818", "-1"),
            ("0.206, 0.225,", '0.206, "?",')))
        starts = ["shocks.corelation is no key of a case; did you mean shocks.correlation?", "ufr is 4.2 without a unit",
                  'days.rates, term 2 of day 1, is "?"', "flows.pension, term 2, is -1", "amounts.cash is 1.0",
                  "shocks.mature_fall is 25 without a unit", "shocks.correlation is missing", 'shocks.duration is "73 months"',
                  "people.heads is missing", "people.pension_age is 67 without a unit"]
        self.assertEqual(len(faults), len(starts), faults)
        for fault, start in zip(faults, starts):
            self.assertTrue(fault.startswith(start), fault)

    def test_missing_tables(self):
        faults = self.faults("")
        for key in ["days.rates", "flows.pension", *("shocks." + key for key in KEYS["shocks"]),
                    *("people." + key for key in KEYS["people"])]:
            self.assertEqual(sum(fault.startswith(f"{key} is missing") for fault in faults), key != "shocks.equity_correlation", key)
        self.assertEqual(len(faults), 17)
        faults = self.faults("days = 1\nflows = []\nshocks = 'x'\npeople = 2025-01-01\namounts = 1.5")
        for name in ("days", "flows", "shocks", "people", "amounts"):
            self.assertIn(f"{name} must be a table, [{name}]", faults)

    def test_unknown_keys(self):
        for old, new, words in (
                ("[shocks]", "[shoks]", "shoks is no key of a case; did you mean shocks?"),
                ("ufr = ", "UFR = ", "UFR is no key of a case; did you mean ufr?"),
                ("heads =", "head =", "people.head is no key of a case; did you mean people.heads?"),
                ("mean_age =", "meanage =", "did you mean people.mean_age?"),
                ("heads =", 'ufr = "4 %"\nheads =', "people.ufr is no key of a case; did you mean ufr?"),
                ("heads =", "heads = 5\nzzz =", "people.zzz is no key of a case")):
            faults = self.faults(self.changed((old, new)))
            self.assertTrue(any(fault.endswith(words) for fault in faults), (words, faults))

    def test_refusal_6(self):
        """Each term that is out of limits, beside the faults of other keys."""
        faults = self.faults(self.changed(("0.206, 0.225,", "0.206, 9,"), ("heads = 1237", "")))
        self.assertEqual(len(faults), 2, faults)
        self.assertIn("days: refused, 6: the one-year forward rate from year 2 to year 3 is about", faults[0])
        self.assertIn("it must be -2 % to 12 %: with s(t) the sum of term t's rates over the days, 3 × s(3) - 2 × s(2) is",
                      faults[0])
        faults = self.faults(re.sub(r"rates = \[.*?\n\]", f"rates = [{[0, 9.9] * 30}]", TEXT, flags=re.DOTALL))
        self.assertEqual(len(faults), 59)

    def test_a_case_that_is_refused(self):
        """A text whose only fault is refusal 6 is a case, whose bytes are refused with 6; with another fault it is none."""
        steep = f"rates = [{[0, 9.9] * 30}]"
        for text, rate_bytes in ((TEXT, 2), (FOUR_TEXT, 4)):
            text = re.sub(r"rates = \[.*?\n\]", steep, text, flags=re.DOTALL)
            with self.assertRaises(RefusedText) as caught:
                from_toml(text)
            refused = caught.exception
            self.assertEqual((refused.number, len(refused.faults), refused.case.rate_bytes), (6, 59, rate_bytes))
            self.assertTrue(str(refused).startswith("days: refused, 6: the one-year forward rate from year 1 to year 2 is 19.8 %; it must"))
            self.assertEqual(refused.case.days, [[0, 9_900 if rate_bytes == 2 else 990_000] * 30])
            self.assertEqual(refusal(bytes_of(refused.case)), 6)
            with self.assertRaises(Fault):
                write(refused.case)
            for old, new in (("heads = 1237", ""), ("31415927", "-1"), ('ufr = "4.321 %"', 'ufr = "5.001 %"')):
                with self.assertRaises(Wrong) as caught:
                    from_toml(text.replace(old, new))
                self.assertNotIsInstance(caught.exception, RefusedText)
                self.assertEqual(len(caught.exception.faults), 60)
        self.assertEqual(bytes_of(read(UP)), UP)

    def test_many_faults(self):
        with self.assertRaises(Wrong) as caught:
            from_toml(re.sub(r"0\.\d\d\d,", "99,", TEXT))
        self.assertGreater(len(caught.exception.faults), 100)
        lines = str(caught.exception).split("\n")
        self.assertEqual(len(lines), MOST_SHOWN + 1)
        self.assertRegex(lines[-1], "^and [0-9]+ more faults$")

    def test_counts(self):
        flows = "pension = [\n  31415927, 27182818, 16180339,\n]"
        for new, words in ((f"pension = {[1] * 121}", "flows.pension has 121 flows; it must have 1 to 120"),
                           ("pension = []", "flows.pension is empty; write a list of 1 to 120 flows, in euros"),
                           ("pension = 3", "flows.pension is no list"),
                           ("", "flows.pension is missing, and so is flows.pension_csv; write one of them"),
                           (flows + "\npension_csv = 'x'", "flows.pension and flows.pension_csv are both there")):
            self.assertEqual([fault[:len(words)] for fault in self.faults(self.changed((flows, new)))], [words])
        for days in ("[]", "3", f"{[[0] * 60] * 71}"):
            faults = self.faults(re.sub(r"rates = \[.*?\n\]", f"rates = {days}", TEXT, flags=re.DOTALL))
            self.assertEqual(faults, ["days.rates must be a list of 1 to 70 days, each a list of 60 rates"])

    def test_largest_case(self):
        """The largest case, also with all rates in one line and with all units, is within the limits of a text."""
        case = read((ROOT / "cases" / "largest.case").read_bytes())
        text = to_toml(case)
        self.assertEqual(from_toml(text), case)
        rates = re.search(r"rates = \[.*?\n\]", text, re.DOTALL)[0]
        days = [[f"{rate / 1_000:.3f} %" for rate in day] for day in case.days]
        self.assertEqual(from_toml(text.replace(rates, f"rates = {days}")), case)
        flows = str(["100.000.000 euros"] * 120)
        self.assertEqual(from_toml(re.sub(r"pension = \[[^]]*\]", f"pension = {flows}", text)), case)
        four = replace(case, rate_bytes=4, days=[[-99_999 + day for term in range(60)] for day in range(70)])
        self.assertLess(len(to_toml(four)), 100_000)
        self.assertEqual(from_toml(to_toml(four)), four)
        rates = re.search(r"rates = \[.*?\n\]", to_toml(four), re.DOTALL)[0]
        days = str([[f"{rate / 100_000:.5f} %" for rate in day] for day in four.days])
        self.assertEqual(from_toml(to_toml(four).replace(rates, f"rates = {days}")), four)

    def test_long_text(self):
        self.assertIn("characters, more than", self.faults("#" * 300_001)[0])

    def test_examples(self):
        folder = ROOT / "cases"
        texts = sorted(folder.glob("*.toml"))
        self.assertGreater(len(texts), 12)
        for path in texts:
            self.assertEqual(write(from_toml(path.read_text("utf-8"), folder)), path.with_suffix(".case").read_bytes(), path)


class Template(unittest.TestCase):
    def test_each_empty_key(self):
        with self.assertRaises(Wrong) as caught:
            from_toml(template())
        named = [fault.split(" ")[0] for fault in caught.exception.faults]
        self.assertEqual(named, ["ufr", "days.unit", "days.csv", "flows.pension", "flows.bonds",
                                 *(f"{table}.{key}" for table in ("amounts", "shocks", "people") for key in KEYS[table])])
        self.assertTrue(all("is empty" in fault for fault in caught.exception.faults))

    def test_every_key_unit_and_limit(self):
        text = template()
        for table, keys in KEYS.items():
            for key in keys:
                self.assertRegex(text, rf"(?m)^[ #]*(.* and )?{key} = ", key)
        for words in ("rate_bytes = 4: rates to 0.00001 %", "without it they are to 0.001 %, in two bytes each",
                      "Optional; without it the UFR is 4.2 %", "optional; without it there are none",
                      "without this table all eight are 0", "0 % to 5 %", "-1 % to 10 %", "0 % to 100 %", "0 years to 50 years",
                      "0 years to 100 years", "1 to 1,000,000", "0 euros to 100,000,000,000 euros", "1 to 120 flows",
                      "%, bp or steps", "% or thousandths", "years or months", '"fraction" (0.00226 is 0.226 %)',
                      "without it this is 100 %: mature, emerging and private equity and property", "S2 is the sum of their losses"):
            self.assertIn(words, text)

    def test_filled_in(self):
        """Each empty value replaced by its own example, and what is optional deleted."""
        text = re.sub(r'= ""  # .*such as ("[^"]*"|[0-9]+).*', r"= \1", template())
        text = text.replace("pension = []", "pension = [8651000]").replace("bonds = []", "")
        text = text.replace('csv = ""', f"rates = {[[0.226] * 60]}").replace('unit = ""', 'unit = "%"')
        case = from_toml(text)
        self.assertEqual(from_toml(text.replace("[days]", "[days]\nrate_bytes = 4")), replace(case, rate_bytes=4, days=[[22_600] * 60]))
        self.assertEqual((case.rate_bytes, case.ufr, case.shocks["mature_fall"], case.people["pension_age"]), (2, 4_200, 250, 795))
        self.assertEqual(case.equity_correlation, 500)
        self.assertIsNone(case.bonds)
        self.assertEqual(from_toml(re.sub("(?m)^equity_correlation.*\n", "", text)), replace(case, equity_correlation=None))


if __name__ == "__main__":
    unittest.main()
