"""tests/compare/rates.py passes an engine that reads and values rates in four bytes as the reference does, and reports each that does
not."""

import contextlib
import functools
import io
import random
import re
import unittest
from dataclasses import replace
from unittest import mock

from tests.compare import programs, rates as compare_rates
from tests.compare.counting import Comparison
from tests.inputs import examples, files, limits
from tests.reference import reference
from tests.reference.reference import FORBIDDEN_BITS, REQUIRED_BITS, STEPS, UNITS, Case, Cursor, divide, encode, refuse_unless, sums
from tests.writers import four_byte_figures, four_bytes as four_byte_files

REWRITINGS, FINER, EXACTLY, DAMAGED = "rewritings", "seven decimals", "containment and width, exactly", "damaged"


@functools.cache
def some_rate(factor, t, right=reference.zero_rate):
    """The zero rate of a factor; of one that no right curve has, all tested steps."""
    try:
        return right(factor, t)
    except AssertionError:
        return -2_000, 20_000


def setUpModule():
    """Every engine here is put to the same few files: a zero rate is searched once."""
    once = mock.patch.object(reference, "zero_rate", some_rate)
    once.start()
    unittest.addModuleCleanup(once.stop)


# ---------------------------------------------------------------- engines

RIGHT = programs.expected


def engine(**others):
    """Stands for the program: the reference with other functions or numbers in the place of some of its own."""
    def answers(batch):
        with mock.patch.multiple(reference, **others) if others else contextlib.nullcontext():
            return [RIGHT(data) for data in batch]
    return answers


def telling(change):
    """Answers of the reference that are changed, by the file."""
    return lambda batch: [change(data, RIGHT(data)) for data in batch]


def four_bytes(data):
    return len(data) > 1 and data[1] & 0x82 == 0x80


def reading_as(change):
    """A four-byte file is taken for another."""
    return lambda batch: [RIGHT(change(data)) if four_bytes(data) else RIGHT(data) for data in batch]


# Wrong workings

def points(case, N, per_step, shift):
    """Another N and P(t), at least 1, by which a wrong working divides."""
    return N, [max(1, N + s + per_step * shift) for s in sums(case.days)]


def shift_in_units(case, shift=0):
    """A shift adds n x shift to four-byte sums too."""
    return points(case, STEPS * case.per_step, len(case.days), shift)


def shift_of_one_day(case, shift=0):
    return points(case, STEPS * case.per_step, UNITS[case.rate_bytes], shift)


def N_of_two_bytes(case, shift=0):
    return points(case, STEPS * len(case.days), case.per_step, shift)


def mean_in_steps(case, shift=0):
    """The sums of four-byte rates are rounded to steps."""
    N, n = STEPS * len(case.days), len(case.days)
    return N, [N + s // UNITS[case.rate_bytes] + n * shift for s in sums(case.days)]


def rates_in_steps(case, shift=0):
    """Each rate is rounded to a step."""
    units = UNITS[case.rate_bytes]
    return mean_in_steps(replace(case, days=[[rate // units * units for rate in day] for day in case.days]), shift)


def cut_to_64_bits(a, b, end):
    return divide(a % (1 << 64) if b > 10 ** 7 and a < 1 << 90 else a, b, end)


def finer_ufr(N, P, ufr, t, end, weighed=reference.weighed_growth):
    """The UFR counts units of four-byte rates."""
    return weighed(N, P, ufr // 100 if N % 10 ** 7 == 0 and N > 7 * 10 ** 6 else ufr, t, end)


# Wrong reading

def in_place_of_bit_1(data, read=reference.read_fields):
    """The four-byte days stand behind the UFR, as the two-byte ones do."""
    if not four_bytes(data):
        return read(data)
    cursor = Cursor(data)
    bits = cursor.number(2)
    refuse_unless(bits & REQUIRED_BITS == REQUIRED_BITS and not bits & FORBIDDEN_BITS, 3)
    ufr = reference.read_ufr(cursor) if bits & 1 else 4_200
    days, part = reference.read_days(cursor, 4)
    return finished(cursor, bits, ufr, days, part, data)


def finished(cursor, bits, ufr, days, part, data):
    """The fields behind the days."""
    pension = reference.read_flows(cursor, 120)
    bonds = reference.read_flows(cursor, 60) if bits & 8 else []
    amounts = reference.read_amounts(cursor) if bits & 16 else dict.fromkeys(reference.AMOUNTS, 0)
    shocks, people = reference.read_shocks(cursor), reference.read_people(cursor)
    if bits & reference.EQUITY_BIT:
        shocks["equity_correlation"] = reference.read_equity_correlation(cursor)
    refuse_unless(cursor.offset == len(data), 2)
    reference.check_growths(days, 100)
    return Case(ufr, days, pension, bonds, amounts, shocks, *people, 4), part


def unsigned(number, length):
    return number


def lower_half(number, length):
    """Only the lower two bytes."""
    return number % 0x10000 - (0x10000 if number % 0x10000 >= 0x8000 else 0)


def little_endian(number, length):
    return int.from_bytes(number.to_bytes(length, "big"), "little", signed=True)


def any_bit(bits):
    """Both bits are let pass, and bit 7 counts."""
    refuse_unless(bits & 0x82, 3)
    return 4 if bits & 0x80 else 2


def bit_1_counts(bits):
    refuse_unless(bits & 0x82, 3)
    return 2 if bits & 2 else 4


def neither_bit(bits):
    """Neither bit is let pass."""
    refuse_unless(bits & 0x82 != 0x82, 3)
    return 4 if bits & 0x80 else 2


def limits_by(least, most):
    """Other limits of a rate of four bytes."""
    right = reference.rates_within_limits
    return lambda rates, units=1: right(rates, 1) if units == 1 else all(least <= rate <= most for rate in rates)


def growths_by(least, most):
    """Other limits of refusal 6, for each day of four-byte rates."""
    right = reference.growths_within_limits

    def within(days, units=1):
        n, s = len(days), sums(days)
        return right(days) if units == 1 else all(least * n <= t * s[t] - (t - 1) * s[t - 1] <= most * n for t in range(1, 61))
    return within


def two_after_five(data):
    """2 is given ahead of what is wrong with four-byte days."""
    number = reference.refusal(data)
    good = files.all_fields(1, 4)
    return good + b"\0" if number in (4, 5) and reference.refusal(data[:-1]) == number and data.endswith(b"\0") else data


def people_after_days(data):
    """12 is given after what is wrong with the days."""
    if reference.refusal(data) != 12 or len(data) < 280:
        return data
    at = files.places(data)[-1] if data[1] & 0x19 == 0x19 else None
    mended = data if at is None else files.patched(data, (at, b"\x00\x00\x00\x01" + bytes(4)))
    return mended if reference.refusal(mended) in (4, 5) else data


def six_before_two(data):
    longer = reference.refusal(data) == 2 and reference.refusal(data[:-1]) == 6
    return data[:-1] if longer else data


# Wrong answers

def part_of(change):
    """Another part of an accepted four-byte file is handed back."""
    def changed(data, answer):
        if not four_bytes(data) or answer.reading.startswith(b"R"):
            return answer
        offset, length = change(*reference.rates_part(data))
        words = answer.reading.split()[:-3] + [b"%d" % offset, b"%d" % length, b"%d" % programs.hash_of(data[offset:offset + length])]
        return answer._replace(reading=b" ".join(words) + b"\n")
    return telling(changed)


def zero_rates_in_units(data, answer):
    """The zero rates of four-byte files count their units."""
    if not four_bytes(data) or answer.listing.startswith(b"R"):
        return answer
    factors, rates = answer.buffers.splitlines()
    finer = [b"%d" % (100 * (int(word) - STEPS) + STEPS) for word in rates.split()[1:241]]
    return answer._replace(buffers=factors + b"\n" + b" ".join([b"Z", *finer, *rates.split()[241:]]) + b"\n")


def touched(data, answer):
    """A refusal of a four-byte file writes a factor."""
    refused = four_bytes(data) and answer.listing.startswith(b"R")
    return answer._replace(buffers=answer.buffers.replace(b"F 7", b"F 1", 1)) if refused else answer


def refused_by_3(data, answer):
    """Bit 7 is refused, as before there were rates in four bytes."""
    return programs.refused(3) if four_bytes(data) else answer


def widened(data, answer):
    """L of a four-byte file is from 0 on."""
    return answer._replace(listing=re.sub(rb"^L \d+ ", b"L 0 ", answer.listing)) if four_bytes(data) else answer


def old_files_otherwise(data, answer):
    """Two-byte files have another verdict."""
    return answer if four_bytes(data) else answer._replace(listing=answer.listing.replace(b"VRIJ VERMOGEN", b"ONBESLIST"))


def rounded_off(data):
    """A four-byte file whose rates are rounded down to steps."""
    case = reference.read(data)
    if isinstance(case, reference.Refusal):
        return data
    tidy = replace(case, days=[[rate // 100 * 100 for rate in day] for day in case.days])
    other = encode(tidy, bool(data[1] & 1), bool(case.bonds), bool(data[1] & 16), bool(data[0] & 1))
    return other if reference.refusal(other) == 0 else data


WRONG = {
    **{wrong.__name__: engine(points=wrong) for wrong in (shift_in_units, shift_of_one_day, N_of_two_bytes, mean_in_steps, rates_in_steps)},
    "cut_to_64_bits": engine(divide=cut_to_64_bits), "finer_ufr": engine(weighed_growth=finer_ufr),
    "in_place_of_bit_1": engine(read_fields=in_place_of_bit_1),
    **{wrong.__name__: engine(twos_complement=wrong) for wrong in (unsigned, lower_half, little_endian)},
    **{wrong.__name__: engine(rate_bytes_in=wrong) for wrong in (any_bit, bit_1_counts, neither_bit)},
    **{f"bit {bit} let pass": engine(FORBIDDEN_BITS=FORBIDDEN_BITS ^ 1 << bit) for bit in (9, 15)},
    "bit 8 not let pass": engine(FORBIDDEN_BITS=FORBIDDEN_BITS | 1 << 8),
    **{f"bit {bit} not needed": engine(REQUIRED_BITS=REQUIRED_BITS ^ 1 << bit) for bit in (2, 5, 6)},
    **{f"rates of {least} to {most}": engine(rates_within_limits=limits_by(least, most)) for least, most in (
        (-1_000, 10_000), (-100_001, 1_000_000), (-99_999, 1_000_000), (-100_000, 1_000_001), (-100_000, 999_999))},
    **{f"growths of {least} to {most}": engine(growths_within_limits=growths_by(least, most)) for least, most in (
        (-2_000, 12_000), (-200_001, 1_200_000), (-199_999, 1_200_000), (-200_000, 1_200_001), (-200_000, 1_199_999))},
    **{wrong.__name__: reading_as(wrong) for wrong in (two_after_five, people_after_days, six_before_two, rounded_off)},
    "a part half as long": part_of(lambda offset, length: (offset, length // 2)),
    "a part with the count byte": part_of(lambda offset, length: (offset - 1, length)),
    "a part from the front": part_of(lambda offset, length: (3, length)),
    **{wrong.__name__: telling(wrong) for wrong in (zero_rates_in_units, touched, refused_by_3, widened, old_files_otherwise)},
}


# ---------------------------------------------------------------- what is reported

@functools.cache
def trials():
    """A few rewritings, cases with seven decimals, and damaged files: the same for every engine."""
    rng = random.Random(3)
    accepted = [files.file_of(rng, case) for case in (examples.up(), files.ends()[1], *(examples.random_case(rng) for _ in range(6)))]
    made = [(data, files.rewritten(data)) for data in accepted + rng.sample(compare_rates.faulty_files(), 20)]
    made += compare_rates.cut_and_longer(accepted[0])
    cases = [examples.c1(days=examples.flat(1), rate_bytes=4), files.finer_case(examples.up()), files.largest_products(4)[2]]
    cases += [examples.random_case(rng, days, 4) for days in (1, 1, 2, 3, 3, 2)]
    rich = files.all_fields(1, 4)
    first, end = files.field_of_days(rich)
    damaged = [data for _, _, rows in limits.four_byte_groups() for _, data in rows] + files.damaged_once(rich)
    damaged += [data + b"\0" for data in files.damaged_once(rich)] + [rich[:length] for length in range(first, end, 7)]
    damaged += rng.sample(files.other_bytes(rich, [0, 1, 127, 128, 255], first, end), 60)
    return made, cases, damaged + rng.sample(compare_rates.behind_other_faults(rich), 60)


once = functools.cache(RIGHT)


def compared(answers):
    """A short comparison, up to the first kind of trials that has a difference; and what it prints."""
    made, cases, damaged = trials()
    comparison, printed = Comparison(), io.StringIO()
    # the comparison's own side is that of the reference, whatever the engine
    with mock.patch.object(programs, "answers", answers), contextlib.redirect_stdout(printed), mock.patch.object(programs, "expected", once):
        for compare in (lambda: compare_rates.compare_damaged(comparison, damaged), lambda: compare_rates.compare_rewritings(comparison, made),
                        lambda: compare_rates.compare_finer(comparison, random.Random(1), cases, 2)):
            if not comparison.different:
                compare()
    return comparison, printed.getvalue()


class Reported(unittest.TestCase):
    def test_right(self):
        comparison, printed = compared(engine())
        self.assertEqual(comparison.different, 0, printed)
        kinds = re.findall(r"^(.*): (\d+) files, 0 different$", printed, re.M)
        self.assertEqual([kind for kind, _ in kinds], [DAMAGED, REWRITINGS, FINER, EXACTLY])
        cases = compare_rates.extremes() + trials()[1]
        self.assertEqual(compare_rates.unseen(comparison, cases, 8, 10), [])

    def test_wrong(self):
        for name, answers in WRONG.items():
            with self.subTest(name):
                comparison, printed = compared(answers)
                self.assertGreater(comparison.different, 0)
                self.assertIn("DIFFERENT", printed)

    def reported(self, answers, compare):
        comparison, printed = Comparison(), io.StringIO()
        with mock.patch.object(programs, "answers", answers), contextlib.redirect_stdout(printed):
            compare(comparison)
        return printed.getvalue()

    def test_rewritings_alone(self):
        """Engines that differ on accepted files: the old file's answers tell."""
        made, _, _ = trials()
        for wrong, words in ((shift_in_units, "listing: "), (N_of_two_bytes, "is read as")):
            printed = self.reported(engine(points=wrong), lambda comparison: compare_rates.compare_rewritings(comparison, made[:3]))
            self.assertIn(words, printed)
        printed = self.reported(telling(zero_rates_in_units), lambda comparison: compare_rates.compare_rewritings(comparison, made[:3]))
        self.assertIn("buffers: ", printed)
        same_fault = telling(lambda data, answer: answer._replace(listing=b"R 9\n"))
        printed = self.reported(same_fault, lambda comparison: compare_rates.compare_rewritings(comparison, made[:3]))
        self.assertIn("by the reference", printed)

    def test_parts_alone(self):
        """By the bytes of the files, whatever the reference says of the part."""
        made, _, _ = trials()
        old, new = made[0]
        n = old[compare_rates.count_at(old)]
        right = (compare_rates.count_at(old) + 1, 120 * n), (len(new) - 240 * n - 2 * (new[0] & 1), 240 * n)
        self.assertEqual(right, (reference.rates_part(old), reference.rates_part(new)))
        self.assertEqual(list(compare_rates.part_faults(old, new, *right)), [])
        for wrong in (((3, 120 * n), right[1]), (right[0], (right[1][0], 120 * n)), (right[0], (right[1][0] - 1, 240 * n))):
            self.assertEqual(len(list(compare_rates.part_faults(old, new, *wrong))), 1)

    def test_exactly(self):
        """Brackets that are those of other rates do not hold the exact figures, and one that is too wide is told."""
        _, cases, _ = trials()
        finer = lambda comparison: compare_rates.compare_finer(comparison, random.Random(1), cases[:2], 2)
        self.assertIn("exact L lies in its bracket", self.reported(reading_as(rounded_off), finer))
        self.assertIn("L is at most", self.reported(telling(widened), finer))
        self.assertIn("it is refused", self.reported(telling(refused_by_3), finer))

    def test_unseen(self):
        """A comparison that missed an outcome, has too few rates with seven decimals, or works the ends of the limits not exactly, does not
        pass."""
        cases = compare_rates.extremes() + trials()[1]
        six = examples.c1(days=examples.flat(10), rate_bytes=4)
        for outcome in programs.OUTCOMES:
            comparison = Comparison()
            comparison.outcomes.update(set(programs.OUTCOMES) - {outcome})
            self.assertEqual(compare_rates.unseen(comparison, cases, 8, 10), [outcome])
            comparison.outcomes[outcome] += 1
            self.assertEqual(compare_rates.unseen(comparison, cases, 8, 10), [])
            self.assertEqual(compare_rates.unseen(comparison, compare_rates.extremes() + [six], 1, 10), ["1 cases with seven decimals"])
            self.assertEqual(compare_rates.unseen(comparison, cases, 8, 9), ["the ends of the limits, exactly"])

    def test_end(self):
        """Ends with 1 on a difference or where something was not seen."""
        for different, missed, code in ((0, [], 0), (1, [], 1), (0, ["R 5"], 1)):
            def compare(comparison, *others):
                comparison.different = different
            with contextlib.ExitStack() as patched:
                for name in ("compare_rewritings", "compare_finer", "compare_damaged"):
                    patched.enter_context(mock.patch.object(compare_rates, name, compare))
                patched.enter_context(mock.patch.object(compare_rates, "finer_cases", lambda rng, count: []))
                patched.enter_context(mock.patch.object(compare_rates, "unseen", lambda *arguments: missed))
                patched.enter_context(contextlib.redirect_stdout(io.StringIO()))
                ended = patched.enter_context(self.assertRaises(SystemExit))
                compare_rates.main(True)
            self.assertEqual(ended.exception.code, code)


class Made(unittest.TestCase):
    """What the comparison is made of is what it says."""

    def test_pairs(self):
        """Accepted files and all refusals; each rewriting is refused as its file is."""
        made = list(compare_rates.pairs(random.Random(5), 100))
        numbers = [tuple(map(reference.refusal, pair)) for pair in made]
        self.assertEqual({old for old, _ in numbers}, set(range(13)))
        self.assertTrue(all(old == new for old, new in numbers))
        self.assertEqual(numbers.count((0, 0)), 100)
        self.assertTrue(all((new[0], new[1]) == (old[0], old[1] ^ 0x82) for old, new in made))

    def test_cases(self):
        cases = compare_rates.finer_cases(random.Random(6), 300)
        self.assertEqual(sum(map(compare_rates.seven_decimals, cases)), 300)
        self.assertEqual(cases[:10], compare_rates.extremes())
        self.assertTrue(all(reference.case_refusal(reference.given_of(case)) == 0 and case.rate_bytes == 4 for case in cases))
        rates = {rate for case in cases for day in case.days for rate in day}
        self.assertLessEqual({-100_000, 1_000_000}, rates)
        self.assertEqual({rate % 100 for rate in rates}, set(range(100)))
        self.assertIn(70, map(lambda case: len(case.days), cases))
        lowest = [case for case in cases if case.days[0] == [-100_000] * 60 and case.shocks["down_shift"] == 1_000]
        self.assertTrue(lowest)

    def test_forwards(self):
        """Both limits of refusal 6 are met, and none is passed."""
        met = set()
        for case in files.at_forwards(random.Random(7), 4):
            s, n = sums(case.days), len(case.days)
            growths = [t * s[t] - (t - 1) * s[t - 1] for t in range(1, 61)]
            self.assertEqual(reference.refusal(encode(case, True, bool(case.bonds), True)), 0)
            met |= {(n, growth // n) for growth in growths if growth in (-200_000 * n, 1_200_000 * n)}
        self.assertLessEqual({(n, limit) for n in (1, 2, 3, 70) for limit in (-200_000, 1_200_000)}, met)

    def test_damage(self):
        """Every byte of the field is changed, and every cut of it is there."""
        rich = files.all_fields(1, 4)
        first, end = files.field_of_days(rich)
        self.assertEqual((end - first, end), (241, len(rich) - 2))
        made = set(compare_rates.damaged(rich, [0, 255]))
        self.assertTrue(all(rich[:length] in made for length in range(first, end)))
        changed = {at for data in made if len(data) == len(rich) for at in range(first, end) if data[at] != rich[at]}
        self.assertEqual(changed, set(range(first, end)))
        self.assertEqual({reference.refusal(data) for data in made}, set(range(13)))

    def test_behind_other_faults(self):
        """Each number of a field before the days comes ahead of what is wrong with them."""
        numbers = {reference.refusal(data) for data in compare_rates.behind_other_faults(files.all_fields(1, 4))}
        self.assertLessEqual({3, 7, 8, 9, 10, 11, 12}, numbers)

    def test_finer_digits(self):
        case = files.finer_case(examples.up())
        self.assertEqual(reference.case_refusal(reference.given_of(case)), 0)
        for fine, old in zip(case.days, examples.up().days):
            self.assertTrue(all(abs(rate - 100 * before) < 50 for rate, before in zip(fine, old)))
            self.assertGreater(len({rate % 100 for rate in fine}), 30)


class Statements(unittest.TestCase):
    """The statements that tests/writers writes about four-byte days are others for each wrong working, limit and map."""

    OTHERS = [("points", wrong) for wrong in (shift_in_units, shift_of_one_day, N_of_two_bytes, mean_in_steps, rates_in_steps)]
    OTHERS += [("rate_bytes_in", wrong) for wrong in (any_bit, bit_1_counts)]
    OTHERS += [("rates_within_limits", limits_by(least, most)) for least, most in (
        (-100_001, 1_000_000), (-99_999, 1_000_000), (-100_000, 1_000_001), (-100_000, 999_999))]
    OTHERS += [("growths_within_limits", growths_by(least, most)) for least, most in (
        (-200_001, 1_200_000), (-199_999, 1_200_000), (-200_000, 1_200_001), (-200_000, 1_199_999))]
    OTHERS += [("FORBIDDEN_BITS", FORBIDDEN_BITS ^ 1 << bit) for bit in range(8, 16)]

    @staticmethod
    def written():
        """None where the numbers contradict one another."""
        try:
            return [written() for written in (four_byte_files.four_byte_cases, four_byte_figures.four_figures, four_byte_figures.four_saved,
                                              four_byte_figures.four_windows, four_byte_figures.four_months, four_byte_files.four_refused)]
        except AssertionError:
            return None

    def test_others(self):
        right = self.written()
        self.assertIsNotNone(right)
        for name, other in self.OTHERS:
            with self.subTest(name, other=other), mock.patch.object(reference, name, other):
                self.assertNotEqual(self.written(), right)

    def test_seventh_decimal(self):
        """No rate of the fund is a whole step, and rounding them to steps changes its factors and figures."""
        case = examples.finer()
        self.assertTrue(all(rate % 100 for day in case.days for rate in day))
        fine, rounded = reference.Rounded(case), reference.Rounded(examples.rounded_off(case))
        for name in ("L", "B", "S1", "S"):
            self.assertNotEqual(getattr(fine, name), getattr(rounded, name))
        self.assertTrue(all(fine.factors[t] != rounded.factors[t] for t in range(1, 121)))


if __name__ == "__main__":
    unittest.main()
