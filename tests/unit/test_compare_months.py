"""tests/compare/months.py passes an engine whose UFRs and valuations are those of the reference, and reports each whose are not."""

import contextlib
import functools
import io
import random
import unittest
from ctypes import sizeof
from fractions import Fraction
from math import ceil, floor, trunc
from unittest import mock

from tests.compare import months as compare_months
from tests.compare.lending import HostUfr, HostValuation
from tests.compare.months import Comparison
from tests.inputs import histories
from tests.inputs.histories import Call, with_month
from tests.inputs.limits import put
from tests.reference import months, reference
from tests.reference.months import Ufr, check_months, months_of, rounded_mean, with_ufr_field, worked
from tests.reference.reference import refusal
from tests.reference.rolling import Valued
from tests.unit.stand_ins import written
from tests.writers import month_histories


class Fake:
    """The engine's functions over the reference, some in another way."""

    def __init__(self, ufr_of=months.ufr_of, value=months.value):
        self.ufr_alone, self.value_months = ufr_of, value

    def ufr_of(self, history, length, start):
        return HostUfr(*self.ufr_alone(bytes(history or b""), start))

    def value_with_months(self, file, file_length, history, history_length, start, factors, factors_length, rates, rates_length):
        valued = self.value_months(bytes(file or b""), bytes(history or b""), start, list(factors), list(rates))
        return written(valued, factors, rates)

    def value(self, data, length, factors, factors_length, rates, rates_length):
        rounded = worked(data)
        new = [one + list(held)[240:] for one, held in zip(reference.buffers(rounded), (factors, rates))]
        return written(Valued(0, rounded, *new), factors, rates)


def any_ufr(file, ufr):
    """The named file, also of a UFR past the limits."""
    return with_ufr_field(file, ufr % 0x10000)


def any_file(file):
    """The working of a file; of one that is refused, some other's."""
    return worked(histories.PLAIN if refusal(file) else file)


def working(**others):
    """An engine that has other functions in the place of some of the reference's, in both its answers. It may let pass what is refused."""
    def patched(function):
        def answer(*arguments):
            with mock.patch.multiple(months, with_ufr_field=any_ufr, worked=any_file, **others):
                return function(*arguments)
        return answer
    return Fake(patched(months.ufr_of), patched(months.value))


# ---------------------------------------------------------------- wrong means

def hundreds(total):
    return Fraction(total, 12_000)


MEANS = {  # of the sum of 120 months
    "halves down": lambda total: 100 * ceil(hundreds(total) - Fraction(1, 2)),
    "halves away from 0": lambda total: (1 if total >= 0 else -1) * 100 * floor(abs(hundreds(total)) + Fraction(1, 2)),
    "halves to even hundreds": lambda total: 100 * round(hundreds(total)),
    "toward 0": lambda total: 100 * trunc(hundreds(total) + Fraction(1, 2)),
    "down": lambda total: 100 * floor(hundreds(total)),
    "up": lambda total: 100 * ceil(hundreds(total)),
    "to the nearest 10": lambda total: 10 * floor(10 * hundreds(total) + Fraction(1, 2)),
    "not to hundreds": lambda total: floor(100 * hundreds(total)),
    "to a step first": lambda total: 100 * floor(Fraction(floor(100 * hundreds(total) + Fraction(1, 2)), 100) + Fraction(1, 2)),
    "of 119 months": lambda total: 100 * floor(Fraction(total, 11_900) + Fraction(1, 2)),
}


# ---------------------------------------------------------------- wrong months

def unsigned(history):
    return [int.from_bytes(history[at:at + 2], "big") for at in range(0, len(history), 2)]


def little_endian(history):
    return [int.from_bytes(history[at:at + 2], "little", signed=True) for at in range(0, len(history), 2)]


def last_left_out(history):
    return months_of(history)[:-1]


def first_left_out(history):
    return months_of(history)[1:]


def last_not_checked(values):
    return months_within(values[:-1])


def first_not_checked(values):
    return months_within(values[1:])


def months_within(values, least=-1_000, most=10_000):
    return all(least <= value <= most for value in values)


LIMITS = {f"months of {least} to {most}": lambda values, least=least, most=most: months_within(values, least, most)
          for least, most in ((-1_001, 10_000), (-999, 10_000), (-1_000, 10_001), (-1_000, 9_999))}


def summed_to_the_end(history, start):
    """The months from the oldest to the last place, and not around the ring."""
    answer = months.ufr_of(history, start)
    return answer if answer.refusal else Ufr(0, rounded_mean(sum(months_of(history)[start:])))


# ---------------------------------------------------------------- wrong checks

def checking(check):
    """Another way to check a history."""
    return working(check_months=check)


def taken_as(change):
    """Another history and start index are taken for those handed in, where they are checked."""
    return checking(lambda history, start: check_months(*change(history, start)))


def start_120(history, start):
    return history, 119 if start == 120 else start


def lower_byte(history, start):
    return history, start % 256


def lower_half(history, start):
    return history, start % (1 << 32)


def turned(history, start):
    return history, start % 120


def any_start(history, start):
    return history, 0


def longer(history, start):
    return history[:240], start


def numbered(history, start):
    """Every refusal of a history that applies."""
    values, wrong = months_of(history), []
    if len(history) != 240 or start > 119:
        wrong.append(17)
    if not months.months_within_limits(values):
        wrong.append(18)
    if len(values) == 120 and not 0 <= months.rounded_ufr(history) <= 5_000:
        wrong.append(19)
    return wrong


def in_order(*order):
    """The checks of a history in another order, or some of them alone."""
    def check(history, start):
        found = numbered(history, start)
        for number in order:
            reference.refuse_unless(number not in found, number)
    return checking(check)


def before_rounding(history, start):
    """19 for a mean outside 0 to 5,000."""
    check_months(history, start)
    reference.refuse_unless(0 <= months.sum_from_first_byte(history) <= 600_000, 19)


def also_5100(history, start):
    if numbered(history, start) != [19] or months.rounded_ufr(history) != 5_100:
        check_months(history, start)


def clamped(total):
    """What is outside 0 to 5,000 is brought to the nearer end."""
    return min(max(rounded_mean(total), 0), 5_000)


# ---------------------------------------------------------------- wrong valuations

def early(applies):
    """A refusal ahead of those of the file."""
    def value(file, history, start, factors, rates):
        number = applies(file, history, start, factors, rates)
        return Valued(number, None, factors, rates) if number else months.value(file, history, start, factors, rates)
    return value


def months_before_13(file, history, start, factors, rates):
    return months.ufr_of(history, start).refusal


def months_before_the_file(file, history, start, factors, rates):
    return 0 if min(len(factors), len(rates)) < 240 else months.ufr_of(history, start).refusal


def months_before_6(file, history, start, factors, rates):
    return months_before_the_file(file, history, start, factors, rates) if refusal(file) == 6 else 0


def months_before_2(file, history, start, factors, rates):
    return months_before_the_file(file, history, start, factors, rates) if refusal(file) == 2 else 0


def file_before_13(file, history, start, factors, rates):
    return refusal(file)


def valued_as(file_of):
    """An accepted file is valued as another."""
    def value(file, history, start, factors, rates):
        if months.refusal(file, history, start, len(factors), len(rates)):
            return months.value(file, history, start, factors, rates)
        rounded = worked(file_of(file, months.ufr_of(history, start).ufr))
        new = [one + held[240:] for one, held in zip(reference.buffers(rounded), (factors, rates))]
        return Valued(0, rounded, *new)
    return value


def field_ignored(file, ufr):
    """The file's own UFR, or the default."""
    return file


def own_field_kept(file, ufr):
    return file if file[1] & 1 else with_ufr_field(file, ufr)


def not_inserted(file, ufr):
    return with_ufr_field(file, ufr) if file[1] & 1 else file


def little_endian_field(file, ufr):
    """The bytes of the UFR exchanged, and brought within its limits."""
    return with_ufr_field(file, int.from_bytes(ufr.to_bytes(2, "little"), "big") % 5_001)


def not_with_four_bytes(file, ufr):
    """A file with four-byte days keeps its own UFR."""
    return file if file[1] >> 7 else with_ufr_field(file, ufr)


def own_ufr_not_checked(file, history, start, factors, rates):
    """The UFR found takes the place of the file's own before that is looked at."""
    answer = months.ufr_of(history, start)
    nine = refusal(file) == 9 and answer.refusal == 0 and len(file) >= 4
    return months.value(with_ufr_field(file, answer.ufr) if nine else file, history, start, factors, rates)


def touched(file, history, start, factors, rates):
    """A refusal of the history writes a factor."""
    valued = months.value(file, history, start, factors, rates)
    return valued._replace(factors=put(factors, 0, 1)) if valued.refusal >= 17 else valued


def filled_on_19(file, history, start, factors, rates):
    """A refusal by 19 leaves the zero rates of the file as it is."""
    valued = months.value(file, history, start, factors, rates)
    return valued._replace(rates=reference.buffers(worked(file))[1] + rates[240:]) if valued.refusal == 19 else valued


def wiped(file, history, start, factors, rates):
    """What is past entry 239 is lost."""
    valued = months.value(file, history, start, factors, rates)
    return valued if valued.refusal else valued._replace(rates=valued.rates[:240] + [0] * (len(rates) - 240))


def one_entry_past(file, history, start, factors, rates):
    """Writes an entry behind the lent ones."""
    valued = months.value(file, history, start, factors, rates)
    return valued if valued.refusal else valued._replace(factors=valued.factors + [1])


def told_on_19(history, start):
    """A refusal by 19 tells the UFR that it refuses."""
    answer = months.ufr_of(history, start)
    return Ufr(19, months.rounded_ufr(history)) if answer.refusal == 19 else answer


def default_on_refusal(history, start):
    answer = months.ufr_of(history, start)
    return answer._replace(ufr=4_200) if answer.refusal else answer


WRONG = {
    **{f"the mean {name}": working(rounded_mean=mean) for name, mean in MEANS.items()},
    **{read.__name__: working(months_of=read) for read in (unsigned, little_endian, last_left_out, first_left_out)},
    **{name: working(months_within_limits=within) for name, within in LIMITS.items()},
    **{within.__name__: working(months_within_limits=within) for within in (last_not_checked, first_not_checked)},
    **{change.__name__: taken_as(change) for change in (start_120, lower_byte, lower_half, turned, any_start, longer)},
    **{f"the order {order}": in_order(*order) for order in ((18, 17, 19), (17, 19, 18), (19, 18, 17), (17, 18), (17, 19), (18, 19))},
    **{check.__name__: checking(check) for check in (before_rounding, also_5100)}, "clamped": working(rounded_mean=clamped),
    **{applies.__name__: Fake(value=early(applies)) for applies in (
        months_before_13, months_before_the_file, months_before_6, months_before_2, file_before_13)},
    **{file_of.__name__: Fake(value=valued_as(file_of)) for file_of in (
        field_ignored, own_field_kept, not_inserted, little_endian_field, not_with_four_bytes)},
    **{value.__name__: Fake(value=value) for value in (own_ufr_not_checked, touched, filled_on_19, wiped, one_entry_past)},
    **{ufr_of.__name__: Fake(ufr_of=ufr_of) for ufr_of in (summed_to_the_end, told_on_19, default_on_refusal)},
}


# ---------------------------------------------------------------- what is reported

@functools.cache
def trials():
    """Rows; start indices, lengths, borders and months; and the order of checks: the same for every engine."""
    rng = random.Random(3)
    accepted = [call.file for call in histories.bases()]
    starts = [(histories.FOUND, start) for start in histories.STARTS[::7] + histories.STARTS[118:]]
    others = [(history, 5) for history in histories.other_lengths(rng)]
    mixed = [(history, rng.randrange(120)) for made in (histories.border_histories(rng), histories.one_month(rng))
             for history in rng.sample(made, 60)]
    with_file = lambda made: [Call(rng.choice(accepted), *one, (240, 242)) for one in made]
    rows = [Call(file, history, start, (240, 241)) for file in accepted for _, history, start in histories.ufr_rows()]
    rows += [call for _, call in (*histories.quick_value_rows(), *histories.value_rows())]
    faults = [call for base in histories.bases() for call in histories.one_fault(base)]
    return rows, with_file(starts + others + mixed), faults + rng.sample(histories.two_faults(histories.bases()[1]), 150)


def compared(engine):
    """A short comparison, up to the first kind of trials that has a difference, and what it prints."""
    comparison, printed = Comparison(engine, random.Random(4)), io.StringIO()
    with contextlib.redirect_stdout(printed):
        for kind, calls in zip(("rows", "histories", "faults"), trials()):
            if not comparison.different:
                comparison.compare_calls(kind, calls)
    return comparison, printed.getvalue()


class Reported(unittest.TestCase):
    def test_right(self):
        for engine in (Fake(), working()):
            comparison, printed = compared(engine)
            self.assertEqual(comparison.different, 0, printed)
            self.assertEqual(set(comparison.seen), {0, *compare_months.REFUSALS})
            self.assertEqual(set(comparison.seen_alone), {0, 17, 18, 19})
            self.assertTrue(comparison.passed())

    def test_wrong(self):
        for name, engine in WRONG.items():
            with self.subTest(name):
                comparison, printed = compared(engine)
                self.assertGreater(comparison.different, 0)
                self.assertFalse(comparison.passed())
                self.assertIn("DIFFERENT", printed)

    def test_unseen(self):
        """A comparison that missed a refusal does not pass."""
        for name, numbers in (("seen", compare_months.REFUSALS), ("seen_alone", compare_months.UFR_REFUSALS)):
            for number in numbers:
                comparison = Comparison(Fake(), random.Random(3))
                comparison.seen.update(compare_months.REFUSALS)
                comparison.seen_alone.update(compare_months.UFR_REFUSALS)
                del getattr(comparison, name)[number]
                self.assertFalse(comparison.passed())
                getattr(comparison, name)[number] += 1
                self.assertTrue(comparison.passed())

    def test_changed_history(self):
        class Changing(Fake):
            def ufr_of(self, history, length, start):
                answer = super().ufr_of(history, length, start)
                if history:
                    history[0] ^= 1
                return answer
        self.assertIn("ufr_of: the history is changed", compared(Changing())[1])

    def test_changed_in_a_valuation(self):
        class Changing(Fake):
            def __init__(self, which):
                super().__init__()
                self.which = which

            def value_with_months(self, *arguments):
                answer = super().value_with_months(*arguments)
                if arguments[self.which]:
                    arguments[self.which][-1] ^= 1
                return answer
        self.assertIn("the file is changed", compared(Changing(0))[1])
        self.assertIn("the history is changed", compared(Changing(2))[1])

    def test_other_file(self):
        """An engine that values files with months rightly, and files alone otherwise."""
        class Other(Fake):
            def value(self, *arguments):
                return HostValuation(0, 1)
        self.assertIn("the file with this UFR", compared(Other())[1])

    def test_other_answer_on_a_refusal(self):
        class Telling(Fake):
            def value_with_months(self, *arguments):
                answer = super().value_with_months(*arguments)
                answer.verdict = answer.verdict or 1
                return answer
        self.assertIn("verdict 1, not 0", compared(Telling())[1])


class Histories(unittest.TestCase):
    """tests/inputs/histories.py: what it makes is what it says."""

    def refusal(self, call):
        return months.refusal(call.file, call.history, call.start, *call.lengths)

    def test_size(self):
        """That of the struct in C."""
        self.assertEqual(sizeof(HostUfr), 16)

    def test_borders(self):
        """Each history has the sum that it is made for. One less is another hundred. All hundreds that months can give are met."""
        rng = random.Random(5)
        sums = histories.border_sums()
        made = histories.border_histories(rng)
        self.assertEqual([months.sum_from_first_byte(history) for history in made], [total for total in sums for _ in range(3)])
        rounded = [rounded_mean(total) for total in sums]
        self.assertEqual(rounded, [100 * q - less for q in range(-10, 102) for less in (0, 100)])
        within = [months.months_within_limits(months_of(history)) for history in made]
        self.assertEqual(within, [False] * 6 + [True] * 660 + [False] * 6)

    def test_one_month(self):
        """Every place of the ring has each of the tried months, and nothing else is past a limit."""
        made = histories.one_month(random.Random(6))
        self.assertEqual(len(made), 120 * len(histories.TRIED_MONTHS))
        for at, history in enumerate(made):
            place, tried = divmod(at, len(histories.TRIED_MONTHS))
            self.assertEqual(months_of(history)[place], histories.TRIED_MONTHS[tried])
            self.assertTrue(months.months_within_limits(months_of(with_month(history, place, 0))))

    def test_lengths(self):
        self.assertEqual([len(history) for history in histories.other_lengths(random.Random(6))], histories.LENGTHS * 2)
        self.assertLessEqual({0, 239, 240, 241}, set(histories.LENGTHS))

    def test_order(self):
        own = [number for number in sorted(histories.refused_files()) for _ in range(2)]
        self.assertEqual(set(own), set(range(1, 13)))
        expected = {"13": [13] * 5, histories.OWN: own, "17": [17] * 6, "18": [18] * 4, "19": [19] * 4}
        for base in histories.bases():
            self.assertEqual(self.refusal(base), 0)
            for name, ways in histories.FAULTS:
                self.assertEqual([self.refusal(fault(base)) for fault in ways], expected[name])

    def test_rows(self):
        """Each limit on both sides, each place of the order."""
        ufrs = [months.ufr_of(history, start) for _, history, start in histories.ufr_rows()]
        self.assertEqual([one.refusal for one in ufrs], [17] * 6 + [0] + [18] * 5 + [0, 19, 0, 19])
        self.assertEqual([one.ufr for one in ufrs if not one.refusal], [3_100, 0, 5_000])
        self.assertEqual([self.refusal(call) for _, call in histories.quick_value_rows()], [13, 13, 1, 3, 9])
        self.assertEqual([self.refusal(call) for _, call in histories.value_rows()], [13, 2, 6, 6, 6, 17, 18, 19, 0])
        self.assertEqual([self.refusal(call) for _, call in histories.four_value_rows()], [5, 6, 17, 0])

    def test_files_of_the_rows(self):
        """The UFR decides a figure and, for the file without the field, the verdict; both files name the same one."""
        named = [with_ufr_field(file, 3_100) for file in (histories.PLAIN, histories.OWN_UFR)]
        self.assertEqual(named[0], named[1])
        found, plain, own = (worked(file) for file in (named[0], histories.PLAIN, histories.OWN_UFR))
        self.assertEqual(len({found.L, plain.L, own.L}), 3)
        self.assertEqual((found.verdict, plain.verdict), (reference.RESERVETEKORT, reference.VRIJ_VERMOGEN))

    def test_files(self):
        """Both files of each case are accepted, one with the field and one without, of both days fields; every UFR is met."""
        accepted = histories.accepted_files(random.Random(7), 2)
        self.assertEqual([(refusal(file), file[1] & 1, file[1] >> 7) for file in accepted], [(0, 1, 0), (0, 0, 0), (0, 1, 1), (0, 0, 1)])
        calls = histories.every_ufr(random.Random(8), accepted)
        found = [months.ufr_of(call.history, call.start) for call in calls]
        self.assertEqual(found, [Ufr(0, ufr) for _ in accepted for ufr in range(0, 5_001, 100)])


class Statements(unittest.TestCase):
    """The statements that tests/writers writes are others for each wrong mean, way to read months and limit."""

    def test_others(self):
        right = month_histories.months_cases(), month_histories.months_refused()
        wrong = [("rounded_mean", mean) for mean in (*MEANS.values(), clamped)]
        wrong += [("months_of", read) for read in (unsigned, little_endian, last_left_out, first_left_out)]
        wrong += [("months_within_limits", within) for within in (*LIMITS.values(), last_not_checked, first_not_checked)]
        for name, other in wrong:
            with self.subTest(name, other=other), mock.patch.object(months, name, other):
                self.assertNotEqual((month_histories.months_cases(), month_histories.months_refused()), right)

    def test_other_files(self):
        """Likewise for each wrong file that is valued."""
        right = month_histories.months_refused()
        for other in (field_ignored, own_field_kept, not_inserted):
            with self.subTest(other.__name__), mock.patch.object(months, "with_ufr_field", other):
                self.assertNotEqual(month_histories.months_refused(), right)


if __name__ == "__main__":
    unittest.main()
