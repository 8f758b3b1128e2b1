"""Cases that are read and saved, beside the reference in tests/: python3 -m unittest discover -s hosts/python/tests."""

import random
import sys
import unittest
from dataclasses import fields, replace
from itertools import product
from pathlib import Path

HERE = Path(__file__).resolve()
sys.path[:0] = [str(HERE.parents[1]), str(HERE.parents[3])]
import ginghamowl
from common import (BOTH_FORMS, C1, UP, UP_FOUR, case_of, damaged_files, faults_in_order, refused_with, seeded_files, shortest,
                    with_field)
from ginghamowl import Amounts, Case, DaysForm, Refused, Shocks
from tests.inputs import examples, files
from tests.reference import reference

DAY, FLOW, AMOUNT = [0] * 60, 100_000_000, 100_000_000_000


class BesideTheReference(unittest.TestCase):
    def test_there_and_back(self):
        fixed = [examples.c1(), examples.c1(amounts=dict.fromkeys(reference.AMOUNTS, 0)), examples.up(), examples.down(),
                 examples.bent(), examples.long(), examples.no_flows()]
        fixed += [files.finer_case(held) for held in fixed]
        for held in [*fixed, *(held for _, held in seeded_files(3, 60))]:
            case, saved = case_of(held), shortest(held)
            self.assertEqual(case.save(), saved)
            for present in ((ufr, bool(held.bonds), amounts) for ufr in (True, held.ufr != 4_200)
                            for amounts in (True, any(held.amounts.values()))):
                data = reference.encode(held, *present)
                self.assertEqual(Case.read(data), case)
                self.assertEqual(Case.read(data).save(), saved)
                self.assertEqual(ginghamowl.value(data), ginghamowl.value(saved))

    def test_damaged_files(self):
        for data in damaged_files(4, 3_000):
            held = reference.read(data)
            if isinstance(held, reference.Refusal):
                with self.assertRaises(Refused) as caught:
                    Case.read(data)
                self.assertEqual(caught.exception.number, held.number)
            else:
                self.assertEqual(Case.read(data), case_of(held))
                self.assertEqual(case_of(held).save(), shortest(held))

    def test_refused_as_the_file_is(self):
        """Whatever the numbers, where they fit into a file: the case is refused as that file is."""
        rng, seen = random.Random(5), set()
        for rate_bytes in BOTH_FORMS * 2_000:
            held = files.in_form(examples.up(), rate_bytes)
            for _ in range(rng.randint(0, 3)):
                self.spoil(rng, held)
            answer = reference.read(shortest(held))
            number = answer.number if isinstance(answer, reference.Refusal) else 0
            self.assertEqual(refused_with(case_of(held)), number)
            seen.add((rate_bytes, number))
        self.assertEqual(seen, set(product(BOTH_FORMS, [0, *range(4, 13)])))

    def spoil(self, rng, held):
        """Another number in one place, of any size that a file has room for."""
        up_to = lambda most: rng.choice([0, 1, most, rng.randint(0, most) >> rng.randint(0, 16)])
        place = rng.randrange(9)
        if place == 0:
            held.ufr = up_to(0xFFFF)
        elif place == 1:
            held.days = [rng.choice([DAY, [100] * 60])] * rng.choice([0, 1, 70, 71, 255])
        elif place == 2 and held.days:
            held.days[0] = [*held.days[0][:-1], self.any_rate(rng, held.rate_bytes)]
        elif place == 3:
            held.pension = [up_to(0xFFFFFFFF)] * rng.choice([0, 1, 120, 121])
        elif place == 4:
            held.bonds = [up_to(0xFFFFFFFF)] * rng.choice([0, 1, 60, 61])
        elif place == 5:
            held.amounts[rng.choice(reference.AMOUNTS)] = up_to(2 ** 64 - 1)
        elif place == 6:
            held.shocks[rng.choice(reference.SHOCKS)] = up_to(0xFFFF)
        elif place == 7:
            held.heads = up_to(0xFFFFFFFF)
        else:
            held.pension_age, held.mean_age = up_to(0xFFFF), up_to(0xFFFF)

    def any_rate(self, rng, rate_bytes):
        """Around the limits, or of any size that its bytes have room for."""
        units, end = reference.UNITS[rate_bytes], 1 << 8 * rate_bytes - 1
        return rng.choice([rng.randint(-1_010 * units, 10_010 * units), rng.randint(-end, end - 1)])


class Saving(unittest.TestCase):
    def test_c1(self):
        file = (HERE.parents[3] / "cases/c1.case").read_bytes()
        self.assertEqual((C1.save(), Case.read(file)), (file, C1))

    def test_left_out(self):
        bare = with_field(C1, "amounts", cash=0)
        forms = (DaysForm.TWO_BYTES, 160, 0x66), (DaysForm.FOUR_BYTES, 280, 0xE4)
        for (form, least, bits), ufr, bonds, cash, equity in product(forms, (0, 1), (0, 1), (0, 1), (0, 1)):
            case = with_field(replace(bare.in_form(form), ufr=4_200 + ufr, bonds=[0] * bonds), "amounts", cash=cash)
            case = with_field(case, "shocks", equity_correlation=1_000 - equity)
            saved = case.save()
            self.assertEqual(len(saved), least + 2 * ufr + 5 * bonds + 64 * cash + 2 * equity)
            self.assertEqual(saved[:2], bytes([equity, bits | ufr | bonds << 3 | cash << 4]))
            self.assertEqual(Case.read(saved), case)

    def test_largest(self):
        apart = with_field(UP, "shocks", equity_correlation=999)
        for form, length in ((DaysForm.TWO_BYTES, 9_225), (DaysForm.FOUR_BYTES, ginghamowl.FILE_BYTES)):
            case = replace(apart, days=[DAY] * 70, pension=[FLOW] * 120, bonds=[FLOW] * 60, days_form=form)
            self.assertEqual(len(case.save()), length)
            self.assertEqual(Case.read(case.save()), case)

    def test_different_cases_have_different_bytes(self):
        """Each number one down, each list longer, days in another order: none of them is saved as another is."""
        cases = [UP, replace(UP, ufr=UP.ufr - 1), replace(UP, days=UP.days[::-1]), replace(UP, days=[*UP.days, UP.days[0]]),
                 replace(UP, days=[*UP.days[:2], [*UP.days[2][:59], UP.days[2][59] - 1]]),
                 replace(UP, days=tuple(UP.days), days_form=DaysForm.FOUR_BYTES), UP.in_form(DaysForm.FOUR_BYTES), UP_FOUR,
                 replace(UP_FOUR, days=[*UP_FOUR.days[:2], [*UP_FOUR.days[2][:59], UP_FOUR.days[2][59] - 1]])]
        for name in ("pension", "bonds"):
            flows = getattr(UP, name)
            cases += [replace(UP, **{name: flows[::-1]}), replace(UP, **{name: [*flows, 0]}), replace(UP, **{name: flows[:-1]})]
        for name in ("amounts", "shocks", "people"):
            record = getattr(UP, name)
            cases += [with_field(UP, name, **{field.name: getattr(record, field.name) - 1}) for field in fields(record)]
        self.assertEqual(len({case.save() for case in cases}), len(cases))
        for case in cases:
            self.assertEqual(Case.read(case.save()), case)

    def test_lists_and_tuples(self):
        lists = replace(UP, days=[list(day) for day in UP.days], pension=list(UP.pension), bonds=list(UP.bonds))
        self.assertEqual((lists, hash(lists), lists.save()), (UP, hash(UP), UP.save()))
        lent = [[5] * 60]
        case = replace(UP, days=lent)
        lent[0][0] = 7
        self.assertEqual(case.days, ((5,) * 60,))


class RefusedCases(unittest.TestCase):
    def refused(self, case, number):
        with self.assertRaises(Refused) as caught:
            case.save()
        self.assertEqual(caught.exception.number, number)

    def test_limits(self):
        """The last number that passes on each side, and the first that does not; and numbers that C could only cut."""
        shocks = {field.name: 1_000 for field in fields(Shocks)} | {"spread": 10_000, "duration": 500}
        people = {"heads": 1_000_000, "pension_age": 1_200, "mean_age": 1_200}
        rows = [(9, 0, 5_000, lambda n: replace(UP, ufr=n)),
                (8, 0, FLOW, lambda n: replace(UP, pension=[1, n])), (8, 0, FLOW, lambda n: replace(UP, bonds=[1, n]))]
        for refusal, record, limits in ((10, "amounts", {field.name: AMOUNT for field in fields(Amounts)}), (11, "shocks", shocks),
                                        (12, "people", people)):
            rows += [(refusal, int(name == "heads"), most, lambda n, record=record, name=name: with_field(UP, record, **{name: n}))
                     for name, most in limits.items()]
        for refusal, least, most, case in rows:
            for number in (least, most):
                self.assertEqual(Case.read(case(number).save()), case(number))
            for number in (least - 1, most + 1, -2 ** 63, -2 ** 64 + 1, 2 ** 63, 2 ** 64 - 1, 2 ** 64, 2 ** 64 + 1, 2 ** 100):
                self.refused(case(number), refusal)

    def test_rates(self):
        too_long = 2 ** 31 - 1, 2 ** 31, -2 ** 31, -2 ** 31 - 1, 2 ** 32, 2 ** 32 + 5, -2 ** 32, 2 ** 64, 2 ** 100, -2 ** 100
        for case, units in ((UP, 1), (UP_FOUR, 100)):
            flat = lambda rate: replace(case, days=[[rate] * 60] * 2)
            least, most = -1_000 * units, 10_000 * units
            for rate in (least, most):
                self.assertEqual(Case.read(flat(rate).save()), flat(rate))
            for rate in (least - 1, most + 1, 2 ** 16 * units, -2 ** 16 * units, 2 ** 24, 2 ** 24 + least, *too_long):
                for day in ([rate, *DAY[1:]], [*DAY[1:], rate]):
                    self.refused(replace(case, days=[DAY, day]), 5)
            steep = [0] + [6_000 * units] * 59
            self.assertEqual(refused_with(replace(case, days=[steep])), 0)
            self.refused(replace(case, days=[[0, steep[1] + 1, *steep[2:]]]), 6)
            self.refused(replace(case, days=[[-1, *steep[1:]]]), 6)

    def test_counts(self):
        for case in (UP, UP_FOUR):
            for days in ([], [DAY] * 71, [DAY] * 256, [DAY] * 257):
                self.refused(replace(case, days=days), 4)
            for count in (0, 121, 256, 257):
                self.refused(replace(case, pension=[0] * count), 7)
            for count in (61, 256, 257):
                self.refused(replace(case, bonds=[0] * count), 7)

    def test_days_that_have_not_60_rates(self):
        for lengths in ([59], [61], [0], [120], [59, 61], [61, 59], [60, 0], [0, 60], [60, 30, 30], [1] * 60, [60] * 69 + [120]):
            for form, without_flows in ((DaysForm.TWO_BYTES, 4), (DaysForm.FOUR_BYTES, 7)):
                case = replace(UP, days=[[0] * length for length in lengths], days_form=form)
                self.refused(case, 4)
                self.refused(replace(case, ufr=5_001), 9)
                self.refused(replace(case, pension=[]), without_flows)
                self.refused(replace(case, days=[[2 ** 24] * length for length in lengths] + [[2 ** 24] * 59]), 4)

    def test_order(self):
        """Of two faults, the first in the order of the checks is given; days in four bytes are checked behind the people."""
        for case in (UP, UP_FOUR):
            faults = faults_in_order(case)
            for first, (number, spoiled) in enumerate(faults):
                self.refused(replace(case, **spoiled), number)
                for _, later in faults[first:]:
                    self.refused(replace(case, **(later | spoiled)), number)

    def test_what_is_no_int(self):
        for wrong in (1.0, True, "1", None, b"1"):
            cases = [replace(UP, ufr=wrong), replace(UP, days=[[wrong, *DAY[1:]]]), replace(UP, days=[[wrong]]),
                     replace(UP, pension=[wrong]), replace(UP, bonds=[wrong]), with_field(UP, "amounts", property=wrong),
                     with_field(UP, "shocks", spread=wrong), with_field(UP, "people", heads=wrong)]
            for case in cases:
                with self.assertRaisesRegex(TypeError, f" is an int, not {type(wrong).__name__}$"):
                    case.save()

    def test_records_in_each_others_place(self):
        for changes in ({"amounts": UP.shocks}, {"shocks": UP.people}, {"people": UP.amounts}, {"amounts": None}):
            with self.assertRaises(AttributeError):
                replace(UP, **changes).save()

    def test_what_a_file_may_be(self):
        data = UP.save()
        for given in (data, bytearray(data), memoryview(data)):
            self.assertEqual(Case.read(given), UP)
        for wrong in (data.hex(), 7, None, list(data)):
            with self.assertRaises(TypeError):
                Case.read(wrong)


if __name__ == "__main__":
    unittest.main()
