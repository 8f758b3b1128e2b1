"""tests/compare/figures.py passes an engine that values bonds as the reference does, and reports each that does not."""

import contextlib
import io
import random
import re
import unittest
from dataclasses import replace
from functools import cache
from unittest import mock

from tests.compare import bonds, counting, figures, programs
from tests.inputs import examples, files
from tests.inputs.examples import c1, flat
from tests.reference import reference
from tests.reference.reference import ENDS, ONE, UNITS, UPPER, Rounded
from tests.writers import curves, figures as figure_statements

EXACTLY = "exact B on three curves"
LISTINGS = {k: f"{k} bond flows" for k in bonds.COUNTS}


# ---------------------------------------------------------------- wrong bond factors

RIGHT = reference.bond_factors


def adjusted(case, shift=0):
    """From term 21 on those of the adjusted curve, which are for pension flows alone."""
    return reference.rounded_factors(case, shift, len(case.bonds))


def adjusted_on_moved_curves(case, shift=0):
    return adjusted(case, shift) if shift else RIGHT(case, shift)


def adjusted_on_base_curve(case, shift=0):
    return RIGHT(case, shift) if shift else adjusted(case, shift)


def adjusted_on_down_curve(case, shift=0):
    return adjusted(case, shift) if shift < 0 else RIGHT(case, shift)


def adjusted_from_22(case, shift=0):
    return RIGHT(case, shift)[:22] + adjusted(case, shift)[22:]


def of_the_term_before(case, shift=0):
    right = RIGHT(case, shift)
    return right[:1] + right[:-1]


def mean_of_term_20(case, shift=0):
    """The mean rate stays that of term 20."""
    N, P = reference.points(case, shift)
    return [(ONE, ONE)] + [tuple(reference.unadjusted_factor(N, P[:20] + P[20:21] * 41, t, end) for end in ENDS)
                           for t in range(1, len(case.bonds) + 1)]


def rounded_once(case, shift=0):
    """10^12 x N^t / P(t)^t in one step: narrower than the rounded working's brackets, and right."""
    N, P = reference.points(case, shift)
    return [tuple(reference.divide(ONE * N ** t, P[t] ** t, end) for end in ENDS)
            for t in range(len(case.bonds) + 1)]


def cut_to_64_bits(case, shift=0):
    """A product of N and a factor that loses what is above 2^64."""
    N, P = reference.points(case, shift)
    factors = [(ONE, ONE)]
    for t in range(1, len(case.bonds) + 1):
        ends = [ONE, ONE]
        for _ in range(t):
            ends = [reference.divide(ends[end] * N % 2 ** 64, P[t], end) for end in ENDS]
        factors.append(tuple(ends))
    return factors


def wide(case, shift=0):
    return [(0, 2 ** 50)] * (len(case.bonds) + 1)


def lower_twice(case, shift=0):
    return [(lower, lower) for lower, _ in RIGHT(case, shift)]


# (bond factors, the numbers of bond flows whose listings differ, whether exact B tells)
WRONG = [(adjusted, {21, 60}, True), (adjusted_on_moved_curves, {21, 60}, True), (adjusted_on_base_curve, {21, 60}, True),
         (adjusted_on_down_curve, {21, 60}, True), (adjusted_from_22, {60}, True), (of_the_term_before, {1, 20, 21, 60}, True),
         (mean_of_term_20, {21, 60}, True), (rounded_once, {20, 21, 60}, False), (cut_to_64_bits, {60}, True),
         (wide, {1, 20, 21, 60}, True), (lower_twice, {1, 20, 21, 60}, True)]


# ---------------------------------------------------------------- the comparison, with an engine of these bond factors

LISTING = reference.listing
once = cache(LISTING)  # what is expected of a file does not depend on the engine


def engine(factors):
    """Stands for the program: the reference with these bond factors."""
    def answers(batch):
        with mock.patch.object(reference, "bond_factors", factors):
            return [programs.Answers(listing=LISTING(data)) for data in batch]
    return answers


def figures_of(case, factors=RIGHT):
    """The figures of all questions about a case, by such an engine."""
    asked = bonds.questions(case)
    answers = engine(factors)([files.file_of(random.Random(1), one) for one in asked.values()])
    return {name: programs.money_in(answer.listing) for name, answer in zip(asked, answers)}


def few_days(case):
    """The same, of at most three days unless it is the largest factor."""
    return case if case in (largest(), largest(4)) else replace(case, days=case.days[:3])


def largest(rate_bytes=2):
    return replace(examples.deepest(), days=flat(-1_000 * UNITS[rate_bytes]) * 70, rate_bytes=rate_bytes)


class Engines(unittest.TestCase):
    CASES = {k: [few_days(case) for case in of_k] for k, of_k in bonds.bond_cases(random.Random(5), 7).items()}
    FOUR_BYTES = {k: [few_days(case) for case in of_k] for k, of_k in bonds.bond_cases(random.Random(6), 7, 4).items()}

    def compared(self, answers, cases=CASES, kinds=LISTINGS.values()):
        """The kinds that are reported as different, and the ways to find B that were not seen."""
        printed, comparison = io.StringIO(), counting.Comparison()
        with (mock.patch.object(programs, "answers", answers), contextlib.redirect_stdout(printed),
              mock.patch.object(reference, "listing", once)):
            unseen = figures.compare_bonds(comparison, random.Random(1), cases, 3)
        counts = re.findall(r"^(.*): \d+ files, (\d+) different$", printed.getvalue(), re.M)
        self.assertEqual([kind for kind, _ in counts], [*kinds, EXACTLY])
        self.assertEqual(comparison.different, sum(int(count) for _, count in counts))
        return {kind for kind, count in counts if count != "0"}, unseen

    def test_right(self):
        self.assertEqual(self.compared(engine(RIGHT)), (set(), []))

    def test_four_bytes(self):
        """A product of N and a factor is above 2^64 for two days of four-byte rates already."""
        kinds = [f"{kind}, 4 bytes a rate" for kind in LISTINGS.values()]
        self.assertEqual(self.compared(engine(RIGHT), self.FOUR_BYTES, kinds), (set(), []))
        found, _ = self.compared(engine(cut_to_64_bits), self.FOUR_BYTES, kinds)
        self.assertEqual(found, {*kinds[1:], EXACTLY})

    def test_wrong(self):
        for factors, listings, exactly in WRONG:
            found, _ = self.compared(engine(factors))
            self.assertEqual(found, {LISTINGS[k] for k in listings} | ({EXACTLY} if exactly else set()), factors)

    def test_refused(self):
        """An engine that refuses all files with bonds."""
        found, unseen = self.compared(lambda batch: [
            programs.refused(7) if reference.read(data).bonds else answer
            for data, answer in zip(batch, engine(RIGHT)(batch))])
        self.assertEqual(found, {*LISTINGS.values(), EXACTLY} - {LISTINGS[0]})
        self.assertEqual(len(unseen), len(bonds.WAYS))


class Statements(unittest.TestCase):
    """The statements that tests/writers writes about B are others for wrong bond factors."""

    QUICK, LONGER = (curves.bond_statements,), (figure_statements.shifted_figures, figure_statements.deepest_figures)

    @staticmethod
    def written(factors, statements):
        with mock.patch.object(reference, "bond_factors", factors):
            return [statement() for statement in statements]

    def changed_by(self, statements):
        right = self.written(RIGHT, statements)
        return {factors for factors, *_ in WRONG if self.written(factors, statements) != right}

    def test_quick(self):
        """Which curve has which factors, by one flow at term 21. The other faults are too small, or elsewhere."""
        self.assertEqual(self.changed_by(self.QUICK), {adjusted, adjusted_on_moved_curves, adjusted_on_base_curve,
                                                       adjusted_on_down_curve, of_the_term_before, wide})

    def test_longer(self):
        """All but products above 2^64, for which it takes 70 days."""
        self.assertEqual(self.changed_by(self.LONGER), {factors for factors, *_ in WRONG} - {cut_to_64_bits})


class Told(unittest.TestCase):
    """What the figures tell of B on the moved curves."""

    CASE = c1(days=examples.bent().days, bonds=[0] * 20 + [10 ** 7] * 5, ufr=0,
              shocks=c1().shocks | {"up_shift": 300, "down_shift": 200})

    def faults(self, factors):
        return list(bonds.faults(self.CASE, figures_of(self.CASE, factors)))

    def test_brackets(self):
        """Those of the reference, of curves whose rates can be moved and cannot be."""
        rng = random.Random(5)
        pool = files.day_pool(rng, 5)
        cases = [examples.deepest(), self.CASE] + [bonds.bond_case(rng, pool, 60) for _ in range(12)]
        cases = [few_days(case) for case in cases if bonds.tells(case)]
        ways = set()
        for case in cases:
            Bs = Rounded(case).Bs
            for curve, way, bracket in bonds.told(figures_of(case)):
                self.assertEqual(bracket, Bs[curve])
                ways.add((curve, way))
        self.assertEqual(ways, set(bonds.WAYS))

    def test_faults(self):
        self.assertEqual(self.faults(RIGHT), [])
        told = [re.split("[,:]", fault)[0] for fault in self.faults(adjusted_on_base_curve)]
        self.assertEqual(told, ["B on the base curve by listing", "B on the up curve by rates", "B on the down curve by rates",
                                "two brackets of B on the up curve", "two brackets of B on the down curve"])
        self.assertTrue(all("wider" in fault or "not told" in fault for fault in self.faults(wide)))

    def test_ufr(self):
        [*_, up, down] = list(bonds.faults(replace(self.CASE, ufr=100), figures_of(replace(self.CASE, ufr=100), adjusted)))
        for fault in (up, down):
            self.assertIn("with another UFR and other pensions", fault)

    def test_not_told(self):
        """A shift of 0; and of a flow of one euro a shift of one step, whose fall is less than what rounding takes."""
        for shift, flow in ((0, 10 ** 7), (1, 1)):
            case = replace(self.CASE, bonds=[flow], shocks=c1().shocks | {"up_shift": shift, "down_shift": shift})
            self.assertFalse(bonds.tells(case))
            self.assertIn("B on the up curve by S1 is not told", bonds.faults(case, figures_of(case)))

    def test_none_told(self):
        """No case: nothing is seen, which ends the comparison with 1."""
        with mock.patch.object(programs, "answers", engine(RIGHT)), contextlib.redirect_stdout(io.StringIO()):
            unseen = figures.compare_exact_bonds(counting.Comparison(), random.Random(1), [])
        self.assertEqual(unseen, ["B, base by listing", "B, up by S1", "B, up by S1 alone", "B, up by rates", "B, down by S1",
                                  "B, down by S1 alone", "B, down by rates"])
        for unseen, code in (([], 0), (["B, up by S1"], 1)):
            with contextlib.ExitStack() as patched:
                for name in ("compare_curves", "compare_exactly", "compare_program"):
                    patched.enter_context(mock.patch.object(figures, name, lambda *arguments: None))
                patched.enter_context(mock.patch.object(figures, "kinds", lambda rng, quick: []))
                patched.enter_context(mock.patch.object(figures, "compare_bonds", lambda *arguments: unseen))
                patched.enter_context(mock.patch.object(programs, "OUTCOMES", []))
                patched.enter_context(contextlib.redirect_stdout(io.StringIO()))
                ended = patched.enter_context(self.assertRaises(SystemExit))
                figures.main(True)
            self.assertEqual(ended.exception.code, code)


class Cases(unittest.TestCase):
    CASES = bonds.bond_cases(random.Random(figures.SEED), 100)

    def test_accepted(self):
        for k, of_k in self.CASES.items():
            self.assertEqual(len(of_k), 100)
            for case in of_k:
                self.assertEqual((reference.case_refusal(reference.given_of(case)), len(case.bonds)), (0, k))

    def test_all_kinds(self):
        """Flat and bent, of 1, 70 and other numbers of days, with flows and fields at both ends."""
        cases = [case for of_k in self.CASES.values() for case in of_k]
        is_flat = lambda case: len({rate for day in case.days for rate in day}) == 1
        self.assertEqual({(is_flat(case), len(case.days) in (1, 70)) for case in cases},
                         {(one, other) for one in (True, False) for other in (True, False)})
        for values, ends in (((len(case.days) for case in cases), {1, 2, 70}), ((case.ufr for case in cases), {0, 4_200, 5_000}),
                             ((flow for case in cases for flow in case.bonds), {0, 10 ** 8}),
                             ((flow for case in cases for flow in case.pension), {0, 10 ** 8}),
                             ((case.shocks["up_shift"] for case in cases), {0, 1_000}),
                             ((case.shocks["down_shift"] for case in cases), {0, 1_000}),
                             ((rate for case in cases for rate in case.days[0]), {-1_000, 0, 10_000})):
            values = set(values)
            self.assertTrue(ends < values)

    def test_largest_factor(self):
        for case in (examples.deepest(), largest()):
            self.assertIn(case, self.CASES[60])
            self.assertTrue(bonds.tells(case))
        self.assertGreater(7_000_000 * RIGHT(largest(), -1_000)[60][UPPER], 2 ** 64)

    def test_enough_tell(self):
        for k in bonds.COUNTS[1:]:
            self.assertGreater(len(list(filter(bonds.tells, self.CASES[k]))), 13)
        self.assertFalse(any(map(bonds.tells, self.CASES[0])))


if __name__ == "__main__":
    unittest.main()
