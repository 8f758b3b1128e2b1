"""Warnings of values that are accepted, but likely a slip: each fires beyond its threshold, and only there."""

import sys
import unittest
from dataclasses import replace
from fractions import Fraction

from tests import ROOT

sys.path[:0] = [str(ROOT / "tools")]
from casetext import from_toml, read, to_toml, warnings_of, write

FUND = read((ROOT / "cases" / "fund.case").read_bytes())
UP = read((ROOT / "cases" / "up.case").read_bytes())
SEVEN = read((ROOT / "cases" / "seven.case").read_bytes())
LONGEST = read((ROOT / "cases" / "longest.case").read_bytes())
CUT = "the share of rates in days with a seventh decimal (0.00001 %) is 0 % of all"
AGAIN = "the number of days that repeat another is 68 (day 2 repeats day 1), above 0"
SHORT = "the last flow of flows.pension is about 78.682171 % of the largest, above 5 % of the largest; was the list cut short?"
FALLS = {f"{name}_fall": name for name in ("mature", "emerging", "private", "property", "currency", "commodities")}


def flat(*rates):
    return [[rate] * 60 for rate in rates]


class Warnings(unittest.TestCase):
    def warned(self, case, *starts):
        """The case is accepted, and its warnings are these."""
        write(case)
        warnings = warnings_of(case)
        self.assertEqual(len(warnings), len(starts), warnings)
        for warning, start in zip(warnings, starts):
            self.assertTrue(warning.startswith(start), warning)
            self.assertNotIn("\n", warning)

    def shocked(self, **shocks):
        return replace(FUND, shocks=FUND.shocks | shocks)

    def holding(self, case=FUND, **amounts):
        return replace(case, amounts=case.amounts | amounts)

    def test_plausible_funds(self):
        self.warned(FUND)
        self.warned(UP)

    def test_each_shock(self):
        for name, threshold, held, shown in (
                *((fall, 50, amount, "4.9 %, below 5 %") for fall, amount in FALLS.items()),
                ("spread_rise", 100, "credit", "9.9 %, below 10 %"), ("correlation", 100, None, "9.9 %, below 10 %"),
                ("up_shift", 100, None, "0.099 %, below 0.1 %"), ("down_shift", 100, None, "0.099 %, below 0.1 %"),
                ("spread", 300, "credit", "0.299 %, below 0.3 %"), ("duration", 10, "credit", "0.9 years, below 1 year")):
            case = self.shocked(**{name: threshold - 1})
            self.warned(case, f"shocks.{name} is {shown}; ")
            self.warned(self.shocked(**{name: threshold}))
            if held:
                self.warned(self.holding(case, **{held: 0}))
                self.warned(self.holding(case, **{held: 1}), f"shocks.{name} is ", f"amounts.{held} is ")

    def test_equity_correlation(self):
        """A file without the field has 100 %."""
        slip = "; was a percentage typed in thousandths, or left at 0, which gives the smallest buffer?"
        for correlation, said in ((None, ()), (1_000, ()), (250, ()), (249, ("is 24.9 %, below 25 %",)), (50, ("is 5 %, below 25 %",)),
                                  (0, ("is 0 %, below 25 %",))):
            self.warned(replace(FUND, equity_correlation=correlation), *(f"shocks.equity_correlation {words}{slip}" for words in said))
        self.warned(replace(UP, equity_correlation=249), "shocks.equity_correlation is 24.9 %")
        self.warned(replace(UP, equity_correlation=0, amounts=None))  # nothing is lost

    def test_slips_of_the_seen_defect(self):
        """Percentages in thousandths, years as months or tenths, basis points as steps: every slip is warned of."""
        shocks = {name: value // 10 for name, value in FUND.shocks.items()}
        shocks |= {"up_shift": 71, "down_shift": 68, "spread": 124, "duration": 5}
        people = FUND.people | {"pension_age": 66, "mean_age": 46}
        self.assertEqual(len(warnings_of(replace(FUND, shocks=shocks, people=people))), 14)

    def test_people(self):
        def aged(pension, mean):
            return replace(FUND, people=FUND.people | {"pension_age": pension, "mean_age": mean})
        self.warned(aged(792, 179), "people.mean_age is 14 years 11 months, below 15 years; were years typed as months?")
        self.warned(aged(792, 180))
        self.warned(aged(179, 179), "people.pension_age is 14 years 11 months, below 60 years; were years typed as months, or the two",
                    "people.mean_age is")
        self.warned(aged(551, 792), "people.pension_age is 45 years 11 months, below 60 years;",
                    "people.pension_age less people.mean_age is -241 months, below -240 months; were the two ages swapped?")
        self.warned(aged(719, 720), "people.pension_age is 59 years 11 months, below 60 years")
        self.warned(aged(792, 912))  # a closed fund of pensioners

    def test_rates(self):
        above = "the lowest mean rate of a term in days is "
        near_0 = "the mean rate of a term in days that is farthest from 0 is "
        fund = self.covered()
        self.warned(replace(fund, days=flat(8_000)))
        self.warned(replace(fund, days=flat(*[8_000] * 69, 8_001)), above + "about 8.000014 %, above 8 %", AGAIN)
        self.warned(replace(fund, days=[[8_001] * 59 + [7_999]]))
        for rate in (0, 299, -299):
            self.warned(replace(fund, days=flat(rate)), f"{near_0}{abs(rate) / 1_000:g} %, below 0.3 %; were fractions typed")
        for rate in (300, -300):
            self.warned(replace(fund, days=flat(rate)))
        self.warned(replace(fund, days=flat(500, -500)), near_0 + "0 %")
        self.warned(replace(FUND, ufr=999), "ufr is 0.999 %, below 1 %")
        self.warned(replace(FUND, ufr=1_000))
        self.warned(replace(FUND, ufr=None))

    def in_four_bytes(self, *rates):
        """A covered fund with flat rates in hundredths of a step."""
        return replace(self.covered(), rate_bytes=4, days=flat(*rates))

    def test_rates_of_four_bytes(self):
        """The thresholds are those of two bytes, and equality does not warn; a mean just beyond one is not shown as it."""
        above = "the lowest mean rate of a term in days is "
        near_0 = "the mean rate of a term in days that is farthest from 0 is "
        self.warned(self.in_four_bytes(800_000), CUT)
        self.warned(self.in_four_bytes(*[800_000] * 69, 800_001), above + "about 8.00000014 %, above 8 %",
                    CUT.replace("0 %", "about 1.428571 %"), AGAIN)
        self.warned(self.in_four_bytes(799_999))
        self.warned(self.in_four_bytes(29_999), near_0 + "0.29999 %, below 0.3 %; were fractions typed")
        self.warned(self.in_four_bytes(-29_999), near_0 + "0.29999 %")
        self.warned(self.in_four_bytes(-30_001))
        self.warned(self.in_four_bytes(30_000), CUT)
        self.warned(self.in_four_bytes(22_613 // 100), near_0 + "0.00226 %, below 0.3 %; were fractions typed as percentages")

    def test_cut_decimals(self):
        """Half of each day's rates with a last decimal are enough, and decimals before it are none; in either form."""
        for form, per_step, name in ((2, 1, "fifth decimal (0.001 %)"), (4, 100, "seventh decimal (0.00001 %)")):
            cut = f"the share of rates in days with a {name} is "
            days = [[per_step * (rate - rate % 10) + per_step // 10 for rate in day] for day in FUND.days]
            days = [[rate - rate % 10 for rate in day] for day in days]
            for whole, said in ((0, (cut + "0 % of all on day 1, below 50 % of all; did",)), (30, ()),
                                (29, (cut + "about 48.333333 % of all on day 1",))):
                judged = [[rate + (term < whole) for term, rate in enumerate(day)] for day in days]
                self.warned(replace(FUND, rate_bytes=form, days=judged), *said)
            one_cut = [[rate - (rate % 10 if place == 4 else 0) for rate in day] for place, day in enumerate(FUND.days)]
            one_cut = [[per_step * rate + (per_step > 1 and place != 4) for rate in day] for place, day in enumerate(one_cut)]
            self.warned(replace(FUND, rate_bytes=form, days=one_cut), cut + "0 % of all on day 5")
        self.warned(FUND)

    def test_cut_example(self):
        """The decimals of seven.case decide its verdict, so that a loss of the last one must be told."""
        self.warned(SEVEN, SHORT)
        self.warned(replace(SEVEN, days=[[rate - rate % 10 for rate in day] for day in SEVEN.days]), CUT, SHORT)
        self.assertNotIn(CUT, warnings_of(LONGEST))

    def test_worth_in_four_bytes(self):
        """The coverage is that of the same rates in two bytes."""
        assets = "the worth of all assets at the mean rates is "
        for bonds, said in ((6_900_000, ()), (6_800_000, (assets + "0.69 times the liabilities, below 0.7 times",))):
            self.warned(replace(self.in_four_bytes(30_001), bonds=[bonds]), *said)

    def covered(self, pension=(10 ** 7,), bonds=(10 ** 7,), heads=100, **amounts):
        """A fund of a few flows at flat rates, whose assets are near its liabilities."""
        return replace(FUND, days=flat(300), pension=list(pension), bonds=list(bonds), people=FUND.people | {"heads": heads},
                       amounts=dict.fromkeys(FUND.amounts, 0) | {"cash": 10 ** 5} | amounts)

    def test_no_bonds_and_no_cash(self):
        none = self.holding(cash=0)
        self.warned(none)
        together = "flows.bonds and amounts.cash together is 0 euros, below 1 euro"
        for bonds in (None, [0, 0]):
            self.assertTrue(warnings_of(replace(none, bonds=bonds))[0].startswith(together))
        self.assertFalse(any(together in warning for warning in warnings_of(replace(none, bonds=[1]))))

    def test_pensions_a_head(self):
        self.warned(self.covered(heads=1_000))
        self.warned(self.covered(heads=1_001), "the sum of flows.pension is 9,990 euros a head, below 10,000 euros a head; were "
                    "thousands of euros typed for euros?")
        self.warned(self.covered(heads=5))
        self.warned(self.covered(heads=4), "the sum of flows.pension is 2,500,000 euros a head, above 2,000,000 euros a head")

    def test_a_flow_beside_its_neighbours(self):
        """The first flow has one neighbour, and the last is judged by what it is above it; zeros at the ends say nothing."""
        largest = "the largest flow of flows.pension beside its neighbours is "
        smallest = "the smallest flow of flows.pension beside its neighbours is "
        step, last = "the largest step between two flows of flows.pension is ", "the last flow of flows.pension less the one before it is "
        cut = "the last flow of flows.pension is 100 % of the largest"
        for flows, said in (([4, 1, 4, 16], (step + "4 times the other (terms 1 and 2)", last + "12,000,000 euros")), ([4], ()),
                            ([1, 4, 1], (step + "4 times",)), ([4, 4, 1], (step + "4 times the other (terms 2 and 3)",)),
                            ([1, 5, 1], (largest + "5 times the flow beside it, above 4", smallest, step)),
                            ([5, 1, 1], (largest + "5 times", step)), ([4, 1, 4], (step, last + "3,000,000 euros")),
                            ([5, 1, 5], (largest, smallest + "0.2 times", step, last)), ([0, 4, 4], ()), ([4, 4, 0], ()),
                            ([4, 0, 4], (smallest + "0 times", last + "4,000,000 euros")), ([1, 2, 1], ()), ([2, 1, 2], (last,)),
                            ([9, 5, 1, 5, 9], (smallest + "0.2 times the flow beside it, below 0.25 times", step, cut, last))):
            case = self.covered([10 ** 6 * flow for flow in flows], [10 ** 6 * sum(flows)])
            self.warned(case, *said)

    def test_a_bond_flow_beside_all(self):
        few, many = [10 ** 6] * 8, [10 ** 6] * 9
        self.warned(self.covered(bonds=[*few, 10 ** 7]))
        self.warned(self.covered(bonds=[*many, 3 * 10 ** 6]))
        self.warned(self.covered(bonds=[*many, 3 * 10 ** 6 + 1]), "the largest flow of flows.bonds is about 25.000006 % "
                    "of their sum, above 25 % of their sum")

    def test_coverage(self):
        """At flat 0.3 % a flow of term 1 loses 0.3 %, so these are just inside and just outside the hundredth."""
        assets = "the worth of all assets at the mean rates is "
        for bonds, said in ((6_900_000, ()), (6_800_000, (assets + "0.69 times the liabilities, below 0.7 times",)),
                            (19_900_000, ()), (20_000_000, (assets + "2.01 times the liabilities, above 2 times",))):
            self.warned(self.covered(bonds=[bonds]), *said)
        self.assertEqual(warnings_of(self.covered([0], heads=1))[0][:27], "the sum of flows.pension is")

    def test_shares(self):
        for name, most in (("emerging", 30), ("private", 20), ("property", 40), ("commodities", 15)):
            for amount, said in ((most, ()), (most + 1, (f"amounts.{name} is {most + 1} % of all assets, above {most} %",))):
                amounts = {name: 10 ** 5 * amount, "cash": 0}
                self.warned(self.covered(bonds=[10 ** 5 * (100 - amount)], **amounts), *said)
        for name in set(FUND.amounts) - {"currency"}:
            other = {"credit" if name == "cash" else "cash": 10 ** 5}
            for amount, said in ((5_000, ()), (4_999, (f"amounts.{name} is 0.04999 % of all assets, below 0.05 %",))):
                self.warned(self.covered(bonds=[9_900_000 - amount], **{"cash": 0, name: amount} | other), *said)
        for amount, said in ((50_000, ()), (49_999, ("amounts.currency is 0.49999 % of all assets, below 0.5 %",)),
                             (10_000_000, ()), (10_000_001, ("amounts.currency is 100.00001 % of all assets, above 100 %",))):
            self.warned(self.covered(bonds=[9_900_000], currency=amount), *said)

    def test_thousands_in_one_place(self):
        """Bonds or amounts in thousands of euros, the other one in euros."""
        amounts = {name: value // 1_000 for name, value in FUND.amounts.items()}
        self.assertTrue(any("the sum of amounts" in warning for warning in warnings_of(replace(FUND, amounts=amounts))))
        bonds = [flow // 1_000 for flow in FUND.bonds]
        self.assertTrue(any("the sum of flows.bonds" in warning for warning in warnings_of(replace(FUND, bonds=bonds))))
        self.warned(self.covered(bonds=[10_000], cash=10 ** 7))
        self.warned(self.covered(bonds=[9_999], cash=10 ** 7), "the sum of flows.bonds is about 0.001 times")

    def test_factors_of_ten(self):
        """A slip of ten, twelve or a hundred in all flows or all amounts, or of ten in one asset that flatters the fund."""
        for factor in (Fraction(1, 100), Fraction(1, 12), Fraction(1, 10), 10, 12, 100):
            for name, most in (("pension", 10 ** 8), ("bonds", 10 ** 8)):
                flows = [int(flow * factor) for flow in getattr(FUND, name)]
                if max(flows) <= most:
                    self.assertTrue(warnings_of(replace(FUND, **{name: flows})), (name, factor))
            amounts = {name: int(value * factor) for name, value in FUND.amounts.items()}
            self.assertTrue(warnings_of(replace(FUND, amounts=amounts)), factor)
        for name in set(FUND.amounts) - {"cash"}:
            self.assertTrue(warnings_of(self.holding(**{name: 10 * FUND.amounts[name]})), name)
        for place in range(len(FUND.pension) - 2):
            pension = [flow // 10 if term == place else flow for term, flow in enumerate(FUND.pension)]
            self.assertTrue(warnings_of(replace(FUND, pension=pension)), place)

    def test_never_refused(self):
        """A case with as many warnings as can be is accepted, there and back."""
        case = replace(FUND, ufr=0, days=flat(0), pension=FUND.pension[:40] * 2, shocks=dict.fromkeys(FUND.shocks, 0),
                       people={"heads": 10 ** 6, "pension_age": 0, "mean_age": 1}, bonds=None, equity_correlation=0,
                       amounts=dict.fromkeys(FUND.amounts, 10 ** 11) | {"cash": 0})
        self.assertEqual(from_toml(to_toml(case)), case)
        self.assertEqual(read(write(case)), case)
        self.assertGreater(len(warnings_of(case)), 20)


if __name__ == "__main__":
    unittest.main()
