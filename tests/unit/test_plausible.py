"""The rules of plausibility: each on both sides of each of its thresholds, and on every example of cases/."""

import sys
import unittest
from dataclasses import replace
from datetime import date, timedelta
from fractions import Fraction
from itertools import combinations

from tests import ROOT

sys.path[:0] = [str(ROOT / "tools")]
import casetext
from casetext.plausible import in_package
from ginghamowl import DaysForm
from ginghamowl._measures import At, Looked, stands_twice, ufr_found
from ginghamowl._plausible import RULES, About, warnings

FUND = in_package(casetext.read((ROOT / "cases" / "fund.case").read_bytes()))
MONTHS = casetext.months.from_csv((ROOT / "cases" / "fund-months.csv").read_bytes()).rates
RULE = {rule.key: rule for rule in RULES}
SUMMER = date(2012, 7, 2)
FALLS = {f"{name}_fall": held for name, held in (
    ("mature", "mature"), ("emerging", "emerging"), ("private", "private_equity"), ("property", "property"),
    ("currency", "currency"), ("commodities", "commodities"))}


def of(**fields):
    """The fund with other fields."""
    return Looked(replace(FUND, **fields))


def flat(*rates):
    return [[rate] * 60 for rate in rates]


def with_rate(term, rate, day=0, days=None):
    """Days in which one rate is another; those of the fund where none are given."""
    changed = [list(rates) for rates in days or FUND.days]
    changed[day][term - 1] = rate
    return changed


def shocked(**shocks):
    return of(shocks=replace(FUND.shocks, **shocks))


def aged(**people):
    return of(people=replace(FUND.people, **people))


def holding(bonds, **amounts):
    """A fund with one bond flow, and with nothing else but these amounts."""
    none = dict.fromkeys(FUND.amounts.__dataclass_fields__, 0)
    return of(bonds=[bonds], amounts=type(FUND.amounts)(**none | amounts))


def ended(last):
    return of(pension=[*[10 ** 6] * 9, last])


def begun(name, first):
    """A list that begins with 0, and then with this flow."""
    return of(**{name: [0, first, *[10 ** 6] * 9]})


def with_months(place, rate, months=(4_000,) * 120):
    """Months of which one is another."""
    return Looked(months=[rate if at == place else month for at, month in enumerate(months, 1)])


def dated(*dates, newest=None):
    return Looked(FUND, dates=dates, newest_month=newest)


def edges():
    """By the key of a rule and the name of a threshold: what measures just that, and what is just beyond it."""
    found = {
        ("ufr", "least"): (of(ufr=1_000), of(ufr=999)),
        ("the lowest mean rate of a term in days", "most"): (of(days=flat(8_000)), of(days=flat(*[8_000] * 69, 8_001))),
        ("the mean rate of a term in days that is farthest from 0", "least"): (of(days=flat(-300)), of(days=flat(299))),
        ("the rate in days that is farthest from the median of its term", "most"): (
            of(days=with_rate(30, 3_000, 1, flat(2_000, 2_000, 2_000))), of(days=with_rate(30, 999, 1, flat(2_000, 2_000, 2_000)))),
        ("the rate in days that is farthest from the mean of the terms beside it", "most"): (
            of(days=with_rate(30, 2_300, 0, flat(2_000))), of(days=with_rate(30, 1_699, 0, flat(2_000)))),
        ("the rate of term 1 or 60 in days that is farthest from the term beside it", "most"): (
            of(days=with_rate(1, 1_000, 0, flat(2_000))), of(days=with_rate(60, 3_001, 0, flat(2_000)))),
        ("the number of days with one rate at all terms", "most"): (of(), of(days=[*FUND.days, [0] * 60])),
        ("the number of days that repeat another", "most"): (of(), of(days=[*FUND.days, FUND.days[3]])),
        ("the time from the first date of days to the last", "most"): (
            dated(SUMMER, SUMMER + timedelta(150)), dated(SUMMER + timedelta(151), SUMMER)),
        ("the time from the newest month of the history to the last date of days", "least"): (
            dated(SUMMER, newest=12 * 2012 + 7), dated(SUMMER, newest=12 * 2012 + 8)),
        ("the time from the newest month of the history to the last date of days", "most"): (
            dated(SUMMER, newest=12 * 2012 + 3), dated(SUMMER, newest=12 * 2012 + 2)),
        ("people.pension_age", "least"): (aged(pension_age=720), aged(pension_age=719)),
        ("people.mean_age", "least"): (aged(mean_age=180), aged(mean_age=179)),
        ("people.pension_age less people.mean_age", "least"): (
            aged(pension_age=792, mean_age=1_032), aged(pension_age=792, mean_age=1_033)),
        ("flows.bonds and amounts.cash together", "least"): (holding(0, cash=1), holding(0, credit=1)),
        ("the sum of flows.pension", "least"): (
            of(pension=[10 ** 7], people=replace(FUND.people, heads=1_000)), of(pension=[10 ** 7 - 1], people=replace(FUND.people, heads=1_000))),
        ("the sum of flows.pension", "most"): (
            of(pension=[10 ** 7], people=replace(FUND.people, heads=5)), of(pension=[10 ** 7 + 1], people=replace(FUND.people, heads=5))),
        ("the largest flow of flows.pension beside its neighbours", "most"): (of(pension=[1, 4, 1]), of(pension=[100, 401, 100])),
        ("the smallest flow of flows.pension beside its neighbours", "least"): (of(pension=[4, 1, 4]), of(pension=[400, 99, 400])),
        ("the largest step between two flows of flows.pension", "most"): (of(pension=[7, 14]), of(pension=[101, 50])),
        ("the first flow of flows.pension behind zeros", "most"): (begun("pension", 250_000), begun("pension", 250_001)),
        ("the first flow of flows.bonds behind zeros", "most"): (begun("bonds", 50_000), begun("bonds", 50_001)),
        ("the last flow of flows.pension", "most"): (ended(50_000), ended(50_001)),
        ("the last flow of flows.pension less the one before it", "most"): (of(pension=[7, 7]), of(pension=[7, 8])),
        ("the largest flow of flows.bonds", "most"): (
            of(bonds=[*[10 ** 6] * 9, 3 * 10 ** 6]), of(bonds=[*[10 ** 6] * 9, 3 * 10 ** 6 + 1])),
        ("the UFR found from the months", "least"): (Looked(months=[950] * 120), Looked(months=[*[950] * 119, 949])),
        ("the number of different months", "least"): tuple(
            Looked(months=[4_000 + month % different for month in range(120)]) for different in (20, 19)),
        ("the largest move from a month to the next", "most"): (
            Looked(months=[4_000] * 60 + [2_000] * 60), Looked(months=[4_000] * 60 + [1_999] * 60)),
        ("the month that is farthest from the nearer of its neighbours", "most"): (with_months(60, 5_000), with_months(60, 2_999)),
        ("the longest run of months that stands twice", "most"): (
            Looked(months=[*range(3_000, 3_115), *range(3_000, 3_005)]), Looked(months=[*range(3_000, 3_114), *range(3_000, 3_006)])),
    }
    for name, form in (("fifth decimal (0.001 %)", DaysForm.TWO_BYTES), ("seventh decimal (0.00001 %)", DaysForm.FOUR_BYTES)):
        found[f"the share of rates in days with a {name}", "least"] = tuple(
            of(days=[*FUND.days, [10 * term + (term <= whole) for term in range(1, 61)]], days_form=form) for whole in (30, 29))
    for name, limit in ({fall: 50 for fall in FALLS} | {"spread_rise": 100, "correlation": 100, "equity_correlation": 250, "up_shift": 100,
                                                        "down_shift": 100, "spread": 300, "duration": 10}).items():
        found[f"shocks.{name}", "least"] = shocked(**{name: limit}), shocked(**{name: limit - 1})
    for name, most in (("pension", 3), ("bonds", 5)):
        block = [10 ** 6 + flow for flow in range(most + 1)]
        found[f"the longest run of flows that stands twice in flows.{name}", "most"] = (
            of(**{name: [*block, 10 ** 6 + 9, *block[:most]]}), of(**{name: block * 2}))
    return found | edges_of_money()


def edges_of_money():
    """Those of the sums and of the amounts, which are shares of all assets."""
    found = {
        ("the worth of all assets at the mean rates", "least"): covered(6_950, 6_949),
        ("the worth of all assets at the mean rates", "most"): covered(20_050, 20_051),
        ("the sum of flows.bonds", "least"): (of(pension=[10 ** 7], bonds=[10 ** 4]), of(pension=[10 ** 7], bonds=[9_999])),
        ("the sum of amounts without currency", "least"): (
            Looked(replace(holding(1, cash=10 ** 4).case, pension=[10 ** 7])),
            Looked(replace(holding(1, cash=9_999).case, pension=[10 ** 7]))),
    }
    for key, name, most in (("mature", "mature", None), ("emerging", "emerging", 30), ("private", "private_equity", 20),
                            ("property", "property", 40), ("commodities", "commodities", 15), ("credit", "credit", None),
                            ("cash", "cash", None)):
        found[f"amounts.{key}", "least"] = holding(1_999, **{name: 1}), holding(2_000, **{name: 1})
        if most:
            found[f"amounts.{key}", "most"] = (holding(1_000 * (100 - most), **{name: 1_000 * most}),
                                               holding(1_000 * (100 - most), **{name: 1_000 * most + 1}))
    found["amounts.currency", "least"] = holding(200, currency=1), holding(201, currency=1)
    found["amounts.currency", "most"] = holding(200, currency=200), holding(200, currency=201)
    return found


def covered(at, beyond):
    """Assets to liabilities of 10,000, at rates of 0: they are told in hundredths, so that halves round to the even one."""
    return tuple(of(days=flat(0), pension=[10_000], bonds=[flow], amounts=holding(0).case.amounts) for flow in (at, beyond))


def number(found):
    return found.value if isinstance(found, At) else found


class Edges(unittest.TestCase):
    def test_every_threshold(self):
        """What measures just the threshold does not warn, and what is just beyond it does, by this rule."""
        tried = edges()
        self.assertEqual(set(tried), {(rule.key, side) for rule in RULES for side in ("least", "most")
                                      if getattr(rule, side) is not None})
        for (key, side), (at, beyond) in tried.items():
            with self.subTest(key, side=side):
                rule = RULE[key]
                threshold, found = getattr(rule, side), number(rule.measure(beyond))
                self.assertIsNone(rule.warning(at))
                if key != "the worth of all assets at the mean rates":
                    self.assertEqual(number(rule.measure(at)), threshold)
                self.assertTrue(found < threshold if side == "least" else found > threshold, found)
                warning = rule.warning(beyond)
                self.assertTrue(warning.startswith(f"{key} is "), warning)
                self.assertIn(f"{'below' if side == 'least' else 'above'} {rule.say(threshold)}; ", warning)

    def test_just_beyond(self):
        """Beyond means the next number that can be measured, where numbers are counted."""
        for (key, side), (_, beyond) in edges().items():
            found, threshold = number(RULE[key].measure(beyond)), getattr(RULE[key], side)
            if RULE[key].say is str:
                self.assertEqual(abs(found - threshold), 1, key)

    def test_table(self):
        self.assertEqual(len(RULE), len(RULES))
        for rule in RULES:
            self.assertTrue(rule.slip.endswith("?"), rule.key)
            self.assertTrue(rule.least is not None or rule.most is not None, rule.key)


class Places(unittest.TestCase):
    """A warning names the day, the term, the months or the flows that it is of."""

    def said(self, looked, *about, of):
        found = warnings(looked, *about or (About.CASE,))
        self.assertTrue(any(of in warning for warning in found), found)

    def test_a_rate(self):
        """0.233 for 2.33 on day 4, in either form; beside the other days, and on a day alone."""
        rates = with_rate(30, 233, 3)
        self.said(of(days=rates), of="(term 30 of day 4 is 0.233 %), above 1 % away")
        self.said(of(days=[rates[3]]), of="(term 30 of day 1 is 0.233 %), above 0.3 % away")
        fine = [[100 * rate + 7 for rate in day] for day in rates]
        self.said(of(days=fine, days_form=DaysForm.FOUR_BYTES), of="(term 30 of day 4 is 0.23307 %), above 1 % away")

    def test_days(self):
        self.said(of(days=[*FUND.days[:5], [0] * 60, *FUND.days[6:]]), of="with one rate at all terms is 1 (day 6), above 0")
        self.said(of(days=[*FUND.days, FUND.days[3]]), of="is 1 (day 21 repeats day 4), above 0")
        self.said(of(days=FUND.days[:10] * 2), of="is 10 (day 11 repeats day 1), above 0")

    def test_flows(self):
        self.said(of(pension=[*FUND.pension[:40]] * 2), of="flows.pension is 40 flows (from 1 on, and again from 41 on), above 3 flows")
        self.said(of(pension=FUND.pension[:40]), of="of the largest, above 5 % of the largest; was the list cut short?")
        self.said(of(pension=[*FUND.pension, sum(FUND.pension) // 10]), of="was a total put behind the flows?")

    def test_months(self):
        self.said(with_months(60, 2_999), About.MONTHS, of="is 1.001 % away (month 60 is 2.999 %), above 1 % away")
        self.said(Looked(months=[4_000] * 60 + [1_999] * 60), About.MONTHS, 
                  of="is 2.001 % (month 61 is 1.999 %, the month before it 4 %), above 2 %")


class Meanings(unittest.TestCase):
    """What a rule does not judge."""

    def silent(self, *looked):
        for one in looked:
            self.assertEqual(warnings(one, About.CASE, About.MONTHS), [])

    def without(self, word, looked):
        found = warnings(looked, About.CASE, About.MONTHS)
        self.assertFalse([warning for warning in found if word in warning], found)

    def test_shocks_without_effect(self):
        """A shock of what the case does not hold."""
        for name, held in FALLS.items() | {("spread_rise", "credit"), ("spread", "credit"), ("duration", "credit")}:
            case = replace(FUND, shocks=replace(FUND.shocks, **{name: 0}))
            self.assertTrue(warnings(Looked(case), About.CASE))
            self.silent(Looked(replace(case, amounts=replace(FUND.amounts, **{held: 0}))))
        case = replace(FUND, shocks=replace(FUND.shocks, correlation=0))
        equities = dict.fromkeys(("mature", "emerging", "private_equity"), 0)
        self.assertTrue(RULE["shocks.correlation"].warning(Looked(replace(case, amounts=replace(FUND.amounts, **equities)))))
        self.assertIsNone(RULE["shocks.correlation"].warning(
            Looked(replace(case, amounts=replace(FUND.amounts, **equities, property=0)))))

    def test_equity_correlation_without_effect(self):
        """It joins losses, so that there must be two; a class without an amount has none, and neither has one that does not fall."""
        rule, classes = RULE["shocks.equity_correlation"], list(FALLS.items())[:4]
        shocks = replace(FUND.shocks, equity_correlation=0)
        for count in range(5):
            for losing in combinations(classes, count):
                other = [pair for pair in classes if pair not in losing]
                for changes in ({"amounts": replace(FUND.amounts, **{held: 0 for _, held in other}), "shocks": shocks},
                                {"shocks": replace(shocks, **{fall: 0 for fall, _ in other})}):
                    self.assertEqual(rule.measure(of(**changes)), 0 if count > 1 else None, losing)
                    self.assertEqual(bool(rule.warning(of(**changes))), count > 1, losing)
        # The falls of what is not in S2 do not count.
        alone = {fall: 0 for fall, _ in classes[1:]}
        self.assertIsNone(rule.measure(of(shocks=replace(shocks, **alone, currency_fall=1_000, commodities_fall=1_000))))

    def test_a_ufr_that_is_not_used(self):
        """Months give another UFR, and that one is judged."""
        case = replace(FUND, ufr=0)
        self.assertTrue(RULE["ufr"].warning(Looked(case)))
        self.silent(Looked(case, MONTHS))
        self.assertEqual(len(warnings(Looked(FUND, [month // 100 for month in MONTHS]), About.CASE, About.MONTHS)), 1)

    def test_ufr_found(self):
        """As the definitions round it, also below 0: to the nearest 100 steps, halves upward."""
        for mean, ufr in ((-151, -200), (-150, -100), (-50, 0), (49, 0), (50, 100), (3_949, 3_900), (3_950, 4_000)):
            self.assertEqual(ufr_found([mean] * 120), ufr)

    def test_few(self):
        """Few flows, few rates and few days may be anything."""
        self.without("cut short", of(pension=[10 ** 7] * 4))
        self.assertIsNotNone(RULE["the last flow of flows.pension"].warning(of(pension=[10 ** 7] * 5)))
        ten, cut = with_rate(1, 90, 0, [[10 * (place % 9) for place in range(60)]]), "the share of rates in days with a "
        self.assertEqual(RULE[cut + "fifth decimal (0.001 %)"].measure(of(days=ten)), At(0, " on day 1"))
        self.assertIsNone(RULE[cut + "fifth decimal (0.001 %)"].measure(of(days=with_rate(1, 0, 0, ten))))
        self.assertEqual(RULE[cut + "seventh decimal (0.00001 %)"].measure(of(days=flat(7, 10), days_form=DaysForm.FOUR_BYTES)),
                         At(Fraction(1, 2), ""))
        self.without("median", of(days=flat(0, 2_001)))
        self.without("one rate at all terms", of(days=flat(1_000, 2_000)))

    def test_runs(self):
        """Three different numbers at least, no overlap, and no shorter run over and over: a ladder of bonds is one."""
        for numbers, length in (([1, 2, 3] * 2, 3), ([1, 2] * 20, 0), ([5] * 60, 0), ([1, 2, 3] * 20, 3), ([1, 2, 3, 1, 2], 0),
                                ([0, 0, 7, 8, 9, 0, 0, 7, 8, 9], 5), ([1, 2, 3, 4, 9, 9, 1, 2, 3, 4, 8], 4), ([], 0), ([3], 0),
                                ([1, 2, 3, 1] * 2, 4), ([1, 2, 1, 2, 3, 1, 2, 1, 2, 3], 5)):
            self.assertEqual(stands_twice(numbers).value, length, numbers)
        ladder = [7 * 10 ** 6 + 50_000 * (term % 5) for term in range(25)]
        self.silent(*(of(bonds=ladder[:length]) for length in (10, 20, 25)))
        for again in ([*FUND.bonds, *FUND.bonds, 0], [*FUND.bonds, *FUND.bonds[1:]], [*FUND.bonds[:20], *FUND.bonds]):
            self.assertIsNotNone(RULE["the longest run of flows that stands twice in flows.bonds"].warning(of(bonds=again)))

    def test_zeros_at_the_ends(self):
        """A sheet of fixed length has them, and they hide no slip."""
        pension = list(FUND.pension)
        self.silent(of(pension=[*pension, 0]), of(pension=[*pension, *[0] * 20]), of(bonds=[*FUND.bonds, 0]))
        self.assertEqual([warning[:44] for warning in warnings(of(pension=[0, 0, *pension]), About.CASE)],
                         ["the first flow of flows.pension behind zeros"])
        for flows, said in (([*pension[:35], 0, 0], "was the list cut short?"), ([*pension, 95 * 10 ** 6, 0], "was a total put behind")):
            self.assertTrue([warning for warning in warnings(of(pension=flows), About.CASE) if said in warning])

    def test_lists_that_begin_late(self):
        """Zeros at the front hide a late list only where few flows follow, or a year without any; or where the first pensions are few."""
        late = {name: RULE[f"the first flow of flows.{name} behind zeros"] for name in ("pension", "bonds")}
        for name, rule in late.items():
            held = list(getattr(FUND, name))
            for zeros in (1, 2, 5):
                self.assertIn(f"(term {zeros + 1}), above ", rule.warning(of(**{name: [*[0] * zeros, *held, 0]})))
                self.assertIn(f"(term {zeros + 1}), above ", rule.warning(of(**{name: [*[0] * zeros, *held[:10]]})))
                self.assertIsNone(rule.warning(of(**{name: [*[0] * zeros, *held[:9]]})))
                self.assertIsNone(rule.warning(of(**{name: [*[0] * zeros, *held[:12], 0, *held[12:]]})))
            self.assertIsNone(rule.measure(of(**{name: held})))
            self.assertIsNone(rule.measure(of(**{name: [0, *held[:9], *[0] * 9]})))
            self.assertIsNone(rule.measure(of(**{name: [0] * 20})))
        self.assertIsNone(late["bonds"].measure(of(bonds=[])))
        # Nobody has a pension yet: the first ones are few.
        self.silent(of(pension=[0, 0, 0, *(240_000 * year for year in range(1, 51)), *(12_000_000 - 250_000 * year for year in range(1, 47))]))
        # Coupons of 3 % of bonds that end every second year, and single bonds without coupons.
        coupons = [10 ** 5 * (12 - year // 2) + 4 * 10 ** 6 * (year % 2) for year in range(1, 24)]
        self.silent(of(bonds=coupons), of(bonds=[0, *[flow * (year % 3 > 0) for year, flow in enumerate(coupons)]]))
        self.assertEqual([warning[:42] for warning in warnings(of(bonds=[0, *coupons]), About.CASE)],
                         ["the first flow of flows.bonds behind zeros"])

    def test_flows_that_are_missing(self):
        """Years left out, or several flows in a row with a digit too few; steps between small flows say nothing."""
        pension, step = list(FUND.pension), "the largest step between two flows of flows.pension"
        for flows in ([*pension[:30], *pension[50:]], [*pension[:35], *pension[70:]],
                      [flow // 10 if 10 <= term < 15 else flow for term, flow in enumerate(pension)]):
            found = [warning for warning in warnings(of(pension=flows), About.CASE) if "are flows missing between them" in warning]
            self.assertEqual(len(found), 1, flows)
        for second, said in ((19_999, None), (20_000, f"{step} is 20000 times the other (terms 1 and 2), above 2 times the other; ")):
            warning = RULE[step].warning(of(pension=[1, *(second * 2 ** term for term in range(6)), 10 ** 6]))
            self.assertEqual(warning and warning[:len(said or "")], said)

    def test_no_dates(self):
        self.silent(Looked(FUND, MONTHS), Looked(FUND, MONTHS, newest_month=0), Looked(FUND, MONTHS, [SUMMER]))


HAND_WORKED = ["the mean rate of a term in days that is farthest from 0", "shocks.up_shift", "shocks.down_shift"]
SIZES = ["the mean rate of a term in days that is farthest from 0", "the sum of flows.pension", "the last flow of flows.pension",
         "the worth of all assets at the mean rates", "the sum of amounts without currency",
         *(f"amounts.{name}" for name in ("mature", "emerging", "private", "property", "commodities", "credit", "cash"))]

# The rules that warn of an example, and why that is right. Those that are not here warn of nothing.
EXAMPLES = {
    # Hand-worked cases of METHOD: rates of 0 or nearly 0, and shifts of 0.
    **dict.fromkeys(("c1", "c2", "c5", "c10", "c11", "shortage"), HAND_WORKED),
    **dict.fromkeys(("bent", "c3", "c4", "c7"), HAND_WORKED[1:]),  # shifts of 0 only
    # Rate 0 at term 1 and 6 % at all others: that is its point.
    "c8": ["the rate in days that is farthest from the mean of the terms beside it",
           "the rate of term 1 or 60 in days that is farthest from the term beside it", *HAND_WORKED[1:]],
    # The largest of everything that the layout has, and the least rates with the most flows.
    **dict.fromkeys(("largest", "longest"), SIZES),
    "deepest": ["the sum of flows.pension", "the last flow of flows.pension"],
    # Three flows, of which the last is the largest, and assets of twice the liabilities.
    "down": ["the last flow of flows.pension less the one before it", "the worth of all assets at the mean rates"],
    # Its pensions end after 25 years with four fifths of the largest: a list that is cut short looks just so.
    "seven": ["the last flow of flows.pension"],
}


class Examples(unittest.TestCase):
    def test_every_example(self):
        """An example warns by these rules, in the table's order, and by no other."""
        seen = {}
        for path in sorted((ROOT / "cases").glob("*.case")):
            try:
                case = casetext.read(path.read_bytes())
            except casetext.Fault:
                continue
            seen[path.stem] = [rule.key for rule in RULES if rule.warning(Looked(in_package(case)))]
        self.assertEqual({name: keys for name, keys in seen.items() if keys}, EXAMPLES)
        self.assertGreater(len(seen), len(EXAMPLES))

    def test_a_text_and_its_file(self):
        """The text of an example warns as its file does."""
        for path in sorted((ROOT / "cases").glob("*.toml")):
            case = casetext.from_toml(path.read_text("utf-8"), path.parent)
            self.assertEqual(casetext.warnings_of(case), casetext.warnings_of(casetext.read(path.with_suffix(".case").read_bytes())))

    def test_months(self):
        self.assertEqual(warnings(Looked(months=MONTHS), About.MONTHS), [])


if __name__ == "__main__":
    unittest.main()
