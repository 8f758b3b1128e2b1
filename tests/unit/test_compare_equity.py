"""tests/compare/equity.py passes an engine that works S2 and S as the reference does, and reports each that does not."""

import contextlib
import functools
import io
import random
import re
import unittest
from dataclasses import replace
from unittest import mock

from tests.compare import equity, programs
from tests.compare.counting import Comparison
from tests.inputs import files
from tests.reference import reference
from tests.reference.reference import FORBIDDEN_BITS, UNITS

RIGHT_S, RIGHT_S2, RIGHT_VERDICT = reference.rounded_S, reference.rounded_S2, reference.rounded_verdict


# ---------------------------------------------------------------- engines

def answer(data):
    """What the comparison looks at."""
    number = reference.refusal(data)
    return programs.refused(number) if number else programs.Answers(programs.reading(data), reference.listing(data), None)


RIGHT = functools.cache(answer)


def engine(**others):
    """Stands for the program: the reference with other functions or numbers in the place of some of its own."""
    def answers(batch):
        with mock.patch.multiple(reference, **others):
            return [answer(data) for data in batch]
    return answers


def with_pairs(pairs):
    return engine(pairs_product_sum=pairs)


def half_of_the_pairs(losses):
    return (sum(losses) ** 2 - sum(loss ** 2 for loss in losses)) // 4


def one_pair_missed(losses):
    *_, private, property_ = losses
    return (sum(losses) ** 2 - sum(loss ** 2 for loss in losses)) // 2 - private * property_


def plain_sum(losses, correlation):
    return reference.rounded_once(sum(losses), 10)


def tenths_as_cents(losses, correlation):
    return RIGHT_S2([10 * loss for loss in losses], correlation)


def each_loss_rounded(losses, correlation):
    return tuple(RIGHT_S2([10 * reference.divide(loss, 10, end) for loss in losses], correlation)[end] for end in reference.ENDS)


def one_cent_more(losses, correlation):
    lower, upper = RIGHT_S2(losses, correlation)
    return lower + 1, upper + 1


def two_cents_wider(losses, correlation):
    """Right, and wider than one root that is rounded once."""
    lower, upper = RIGHT_S2(losses, correlation)
    return max(lower - 1, 0), upper + 1


def no_relief_in_S(parts, correlation):
    """S is wider than it may be."""
    lower, upper = RIGHT_S(parts, correlation)
    return max(lower - 10 ** 6, 0), upper + 10 ** 6


def never_undecided(A, L, S):
    verdict = RIGHT_VERDICT(A, L, S)
    return reference.RESERVETEKORT if verdict == reference.ONBESLIST else verdict


def undecided_by_a_euro(A, L, S):
    """ONBESLIST where another euro would be needed."""
    verdict = RIGHT_VERDICT(A, L, S)
    other = RIGHT_VERDICT(tuple(end - 100 for end in A), L, S)
    return reference.ONBESLIST if verdict == reference.VRIJ_VERMOGEN and other != verdict else verdict


def no_upper_limit(thousandths):
    return None


def another_limit(most):
    return lambda thousandths: reference.refuse_unless(thousandths <= most, 11)


def read_as(change):
    """The correlation is taken for another."""
    right = reference.read_equity_correlation
    return engine(read_equity_correlation=lambda cursor: change(right(cursor)))


def ahead_of_the_days(data):
    """The field of a file with four-byte days is taken from the place behind the people."""
    if len(data) < 2 or data[0] != 1 or not data[1] & 0x80:
        return answer(data)
    case = reference.read(data)
    if isinstance(case, reference.Refusal):
        return answer(data)
    length = 1 + 240 * len(case.days)
    people_end = len(data) - length - 2
    return answer(data[:people_end] + data[people_end + 2:-2] + data[people_end:people_end + 2] + data[-2:])


def two_ahead_of_eleven(data):
    """Bytes behind the field are found first."""
    found = answer(data)
    return programs.refused(2) if found == programs.refused(11) and reference.refusal(data[:-1]) == 11 else found


WORKINGS = {
    "half_of_the_pairs": with_pairs(half_of_the_pairs), "one_pair_missed": with_pairs(one_pair_missed),
    **{wrong.__name__: engine(rounded_S2=wrong) for wrong in (
        plain_sum, tenths_as_cents, each_loss_rounded, one_cent_more, two_cents_wider)},
    "no_relief_in_S": engine(rounded_S=no_relief_in_S),
    **{wrong.__name__: engine(rounded_verdict=wrong) for wrong in (never_undecided, undecided_by_a_euro)},
    "0 is taken for 1,000": read_as(lambda thousandths: thousandths or 1_000),
    "999 is taken for 1,000": read_as(lambda thousandths: 1_000 if thousandths == 999 else thousandths),
    "a low byte alone": read_as(lambda thousandths: thousandths % 256),
    "an absent field is 0": engine(NO_SHOCKS=reference.NO_SHOCKS | {"equity_correlation": 0}),
}
READINGS = {
    "no limit": engine(check_equity_correlation=no_upper_limit), "999": engine(check_equity_correlation=another_limit(999)),
    "1,001": engine(check_equity_correlation=another_limit(1_001)),
    "bit 9 let pass": engine(FORBIDDEN_BITS=FORBIDDEN_BITS ^ 1 << 9), "bit 15 let pass": engine(FORBIDDEN_BITS=FORBIDDEN_BITS ^ 1 << 15),
    "bit 8 not let pass": engine(FORBIDDEN_BITS=FORBIDDEN_BITS | 1 << 8),
    **{wrong.__name__: (lambda batch, wrong=wrong: [wrong(data) for data in batch]) for wrong in (ahead_of_the_days, two_ahead_of_eleven)},
}


# ---------------------------------------------------------------- what is reported

@functools.cache
def trials():
    """Files, small cases and funds: the same for every engine."""
    rng = random.Random(3)
    return (equity.funds(rng, 28, equity.some_case), equity.funds(rng, 56, equity.small_case),
            [small_range(equity.bordered(rng, rate_bytes)) for rate_bytes in (*UNITS, *UNITS)])


def small_range(fund):
    """The fund with a range of cash that halves soon, where its verdict goes from RESERVETEKORT to VRIJ VERMOGEN."""
    return fund._replace(short=max(fund.short, fund.free - 1_064))


def compared(answers):
    """A short comparison, up to the first kind of trials that has a difference; what was seen, and what it prints."""
    found, small, funds = trials()
    comparison, printed, seen = Comparison(), io.StringIO(), []
    expected = {file.data: RIGHT(file.data) for file in found}
    reading = lambda data, right=programs.reading: expected[data].reading if data in expected else right(data)
    parts = (lambda: equity.compare_files(comparison, found), lambda: equity.compare_damaged(comparison, found[::3]),
             lambda: seen.append(equity.compare_exactly(comparison, small)), lambda: seen.append(equity.compare_older(comparison, found)),
             lambda: seen.append(equity.compare_borders(comparison, funds)))
    with (mock.patch.object(programs, "answers", answers), contextlib.redirect_stdout(printed),
          mock.patch.object(programs, "reading", reading)):
        for part in parts:
            part()
            if comparison.different:
                break
    return comparison, seen, printed.getvalue()


def right_engine(batch):
    return [RIGHT(data) for data in batch]


class Reported(unittest.TestCase):
    def test_right(self):
        comparison, seen, printed = compared(right_engine)
        self.assertEqual((comparison.different, len(seen)), (0, 3), printed)
        self.assertEqual(re.findall(r"^(.*): \d+ files, 0 different$", printed, re.M),
                         ["files", "damaged fields", "roots, exactly", "the older form", "borders"])
        found, _, _ = trials()
        self.assertEqual(equity.unseen(comparison, found, sum(seen[1:], seen[0])), [])

    def test_wrong(self):
        for name, answers in (WORKINGS | READINGS).items():
            with self.subTest(name):
                comparison, _, printed = compared(answers)
                self.assertGreater(comparison.different, 0)
                self.assertIn("DIFFERENT", printed)

    def part(self, compare, answers):
        """How many differ in one part of the comparison alone."""
        comparison = Comparison()
        with mock.patch.object(programs, "answers", answers), contextlib.redirect_stdout(io.StringIO()):
            compare(comparison)
        return comparison.different

    def test_exactly(self):
        """The exact part by itself finds each wrong working, also those that are right and too wide."""
        _, small, _ = trials()
        for name in ("half_of_the_pairs", "one_pair_missed", "plain_sum", "tenths_as_cents", "one_cent_more", "two_cents_wider",
                     "no_relief_in_S", "never_undecided", "a low byte alone"):
            self.assertGreater(self.part(lambda comparison: equity.compare_exactly(comparison, small), WORKINGS[name]), 0, name)

    def test_borders(self):
        """The borders by themselves find another S, and an ONBESLIST too many or too few."""
        _, _, funds = trials()
        self.assertEqual(self.part(lambda comparison: equity.compare_borders(comparison, funds), right_engine), 0)
        for name in ("never_undecided", "undecided_by_a_euro"):
            self.assertGreater(self.part(lambda comparison: equity.compare_borders(comparison, funds), WORKINGS[name]), 0, name)

    def test_older(self):
        """The older form by itself finds what an absent field is taken for."""
        found, _, _ = trials()
        self.assertGreater(self.part(lambda comparison: equity.compare_older(comparison, found), WORKINGS["an absent field is 0"]), 0)

    def test_none_seen(self):
        self.assertEqual(len(equity.unseen(Comparison(), [], {kind: 0 for kind in (
            *equity.ROOTS, *reference.VERDICTS, *equity.BORDERS, *equity.OLDER)})), 28 + 8 + 3 + 4 + 2 + 2)


class Made(unittest.TestCase):
    def test_damaged(self):
        """Each damaged field is refused by the reference with the number that the comparison says."""
        for rate_bytes in UNITS:
            for data in (files.all_fields(1, rate_bytes), files.all_fields(3, rate_bytes)):
                for number, bad in equity.damaged(data):
                    self.assertEqual(reference.refusal(bad), number, bad[-4:])

    def test_older_form(self):
        """Of a case at 1,000 the older form is the listing; of another it is not."""
        found, _, _ = trials()
        for file in found:
            same = replace(file.case, shocks=file.case.shocks | {"equity_correlation": 1_000})
            data = reference.encode(same, True, bool(same.bonds), True)
            self.assertEqual(equity.older_listing(file.case), reference.listing(data))

    def test_near(self):
        """Most files that are to be near L + S are within some euros of it."""
        found, _, _ = trials()
        near = [file for file in found if file.near]
        over = [(reference.Rounded(file.case), file) for file in near]
        close = [1 for rounded, _ in over if abs(rounded.A[0] - rounded.L[0] - rounded.S[0]) <= 500]
        self.assertEqual(len(near), 14)
        self.assertGreater(len(close), 10)


if __name__ == "__main__":
    unittest.main()
