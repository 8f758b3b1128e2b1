"""tests/compare/rolling.py passes an engine whose windows are those of the reference, and reports each whose windows are not."""

import contextlib
import functools
import io
import random
import unittest
from ctypes import sizeof
from dataclasses import replace
from unittest import mock

from tests.compare import rolling as compare_rolling
from tests.compare.lending import HostChanged, HostDay, HostValuation, HostWindow, given_from
from tests.compare.rolling import Comparison, Script, in_host, unpacked
from tests.inputs import spoiling, windows
from tests.inputs.limits import put
from tests.reference import reference, rolling
from tests.reference.reference import Refusal, encode, growths_within_limits, needed_fields, sums
from tests.reference.rolling import EMPTY, Changed, Valued, damaged, days_held, placed
from tests.unit.stand_ins import written

worked = functools.cache(lambda data: reference.Rounded(reference.read(data)))


def setUpModule():
    """Every engine here is put to the same few cases: each is worked once."""
    once = mock.patch.object(rolling, "Rounded", lambda case: worked(encode(case, *needed_fields(case))))
    once.start()
    unittest.addModuleCleanup(once.stop)


class Fake:
    """The engine's functions over the reference, some in another way."""

    def __init__(self, add=rolling.add, drop=rolling.drop, value=rolling.value, empty=EMPTY):
        self.add, self.drop, self.value_days, self.empty = add, drop, value, empty

    def rolling_empty(self):
        return in_host(self.empty)

    def changed(self, answer):
        return HostChanged(answer.refusal, in_host(answer.window))

    def rolling_add(self, window, day):
        return self.changed(self.add(unpacked(bytes(window)), list(day.rates)))

    def rolling_drop(self, window):
        return self.changed(self.drop(unpacked(bytes(window))))

    def rolling_value(self, window, *arguments):
        *case, factors, _, rates, _ = arguments
        return written(self.value_days(unpacked(bytes(window)), given_from(*case), list(factors), list(rates)), factors, rates)

    def value(self, data, length, factors, factors_length, rates, rates_length):
        case = reference.read(data)
        if isinstance(case, Refusal):
            return HostValuation(case.number)
        rounded = rolling.Rounded(case)
        new = [one + list(held)[240:] for one, held in zip(reference.buffers(rounded), (factors, rates))]
        return written(Valued(0, rounded, *new), factors, rates)


# ---------------------------------------------------------------- wrong windows

def judging(right):
    """An engine with another way to tell a right window."""
    def judged(function):
        def answer(window, *others):
            with mock.patch.object(rolling, "check_window", lambda window: reference.refuse_unless(right(window), 27)):
                return function(window, *others)
        return answer
    return Fake(*map(judged, (rolling.add, rolling.drop, rolling.value)))


def sound(window, check_window=rolling.check_window):
    """What is right by the reference, also while an engine judges otherwise."""
    with mock.patch.object(rolling, "check_window", check_window):
        return not damaged(window)


def in_range(window):
    return window.count <= 70 and window.start <= 69


def rates_judged(days):
    return all(map(reference.rates_within_limits, days))


def sums_judged(window):
    return window.sums == sums(days_held(window))[1:]


def any_sums(window):
    return in_range(window) and rates_judged(days_held(window))


def first_sum_only(window):
    return any_sums(window) and window.sums[0] == sums(days_held(window))[1]


def any_rates(window):
    return in_range(window) and sums_judged(window)


def newest_not_judged(window):
    return any_rates(window) and rates_judged(days_held(window)[:-1])


def free_slots_judged(window):
    return sound(window) and reference.rates_within_limits(window.rates)


def start_zero_if_empty(window):
    return sound(window) and (window.count > 0 or window.start == 0)


def taken_as(change):
    """Another window is taken for the one handed in, by all three functions."""
    return Fake(*(lambda window, *others, function=function: function(change(window), *others)
                  for function in (rolling.add, rolling.drop, rolling.value)))


def start_turned(window):
    return window._replace(start=window.start % 70)


def lower_bytes(window):
    return window._replace(count=window.count % 256, start=window.start % 256)


# ---------------------------------------------------------------- wrong additions

def rates_before_15(window, day):
    full = rolling.add(window, day)
    return Changed(5, window) if full.refusal == 15 and not reference.rates_within_limits(day) else full


def full_before_27(window, day):
    return Changed(15, window) if window.count == 70 else rolling.add(window, day)


def oldest_replaced(window, day):
    """A 71st day takes the place of the oldest."""
    if rolling.add(window, day).refusal == 15:
        window = rolling.drop(window).window
    return rolling.add(window, day)


def sixteen_bits(window, day):
    return rolling.add(window, [(rate + 0x8000) % 0x10000 - 0x8000 for rate in day])


def last_rate_not_checked(window, day):
    answer = rolling.add(window, put(day, 59, 0))
    if answer.refusal:
        return answer
    return Changed(0, placed([*days_held(answer.window)[:-1], put(day, 59, day[59] % 10_000)], window.start, window.rates))


def limit_refused(window, day):
    return Changed(5, window) if rolling.add(window, day).refusal == 0 and max(day) == 10_000 else rolling.add(window, day)


def sums_kept(change):
    """The sums stay those of the days before."""
    return lambda window, *day: change(window, *day)._replace(window=change(window, *day).window._replace(sums=window.sums))


def not_turned(window, day):
    """The last slot takes what belongs to the first ones."""
    answer = rolling.add(window, day)
    if answer.refusal or window.start + window.count < 70:
        return answer
    rates = list(window.rates)
    rates[rolling.rates_at(69)] = day
    return Changed(0, answer.window._replace(rates=rates))


def at_the_front(window, day):
    answer = rolling.add(window, day)
    return answer if answer.refusal else Changed(0, placed([day, *days_held(window)], (window.start - 1) % 70, window.rates))


def moved_to_slot_0(window, day):
    """The right days, but from slot 0 on."""
    answer = rolling.add(window, day)
    return answer if answer.refusal else Changed(0, placed(days_held(answer.window), 0, window.rates))


def emptied_on_refusal(change):
    return lambda window, *day: Changed(change(window, *day).refusal, EMPTY) if change(window, *day).refusal else change(window, *day)


def mended_on_27(change):
    """A refused window with its first sum made right."""
    def answer(window, *day):
        refusal, after = change(window, *day)
        right = refusal == 27 and in_range(window)
        return Changed(refusal, after._replace(sums=put(window.sums, 0, sums(days_held(window))[1])) if right else after)
    return answer


# ---------------------------------------------------------------- wrong drops

def newest_dropped(window):
    answer = rolling.drop(window)
    return answer if answer.refusal else Changed(0, placed(days_held(window)[:-1], window.start, window.rates))


def start_not_turned(window):
    answer = rolling.drop(window)
    return answer if answer.refusal else Changed(0, answer.window._replace(start=window.start + 1))


def slot_cleared(window):
    answer = rolling.drop(window)
    if answer.refusal:
        return answer
    rates = list(window.rates)
    rates[rolling.rates_at(window.start)] = [0] * 60
    return Changed(0, answer.window._replace(rates=rates))


def none_dropped(window):
    """A drop from an empty window is let pass."""
    answer = rolling.drop(window)
    return Changed(0, window) if answer.refusal == 16 else answer


def empty_before_27(window):
    return Changed(16, window) if window.count == 0 else rolling.drop(window)


def start_0_again(window):
    answer = rolling.drop(window)
    return Changed(0, EMPTY._replace(rates=window.rates)) if answer.refusal == 0 and window.count == 1 else answer


# ---------------------------------------------------------------- wrong valuations

def early(number, applies):
    """A refusal ahead of all others."""
    def value(window, given, factors, rates):
        if applies(window, given, factors, rates):
            return Valued(number, None, factors, rates)
        return rolling.value(window, given, factors, rates)
    return value


def early_13(window, given, factors, rates):
    return min(len(factors), len(rates)) < 240


def early_9(window, given, factors, rates):
    return not damaged(window) and given.ufr > 5_000


def early_4(window, given, factors, rates):
    return not damaged(window) and not early_13(window, given, factors, rates) and window.count == 0


def early_6(window, given, factors, rates):
    """6 of the window ahead of the case's own numbers."""
    return not damaged(window) and not early_13(window, given, factors, rates) and not growths_within_limits(days_held(window))


def factors_only(window, given, factors, rates):
    """13 for one of the buffers alone."""
    if len(rates) < 240 <= len(factors):
        return rolling.value(window, given, factors, [0] * 240)._replace(rates=rates)
    return rolling.value(window, given, factors, rates)


def with_case(change):
    """The case is another before it is looked at."""
    return lambda window, given, factors, rates: rolling.value(window, change(window, given), factors, rates)


def own_days_replaced(window, given):
    """The case's own days are not checked."""
    return replace(given, rates=[0] * 60)


def own_six_unchecked(window, given):
    return own_days_replaced(window, given) if reference.case_refusal(given) == 6 else given


def two_bytes_taken(window, given):
    """The case's own days are checked as if they had two bytes."""
    return replace(given, rate_bytes=2)


def any_number_of_bytes(window, given):
    return given if given.rate_bytes in reference.UNITS else replace(given, rate_bytes=2)


def own_rates_in_steps(window, given):
    """Four-byte rates are rounded to steps before they are checked."""
    return replace(given, rates=[rate // 100 for rate in given.rates], rate_bytes=2) if given.rate_bytes == 4 else given


def three_after_nine(window, given, factors, rates):
    """3 for the number of bytes is given after 9."""
    late = reference.case_refusal(replace(given, rate_bytes=2)) == 9 and rolling.value(window, given, factors, rates).refusal == 3
    return Valued(9, None, factors, rates) if late else rolling.value(window, given, factors, rates)


def working_with(case_with):
    """Another case is valued."""
    def value(window, given, factors, rates):
        with mock.patch.object(rolling, "case_with", case_with):
            return rolling.value(window, given, factors, rates)
    return Fake(value=value)


def finer_window(given, days):
    """The window's days are taken for four-byte days where the case has those."""
    return replace(reference.case_of(given), days=days)


def with_days(days_of):
    """An accepted window is valued with other days."""
    def value(window, given, factors, rates):
        right = rolling.value(window, given, factors, rates)
        return right if right.refusal else rolling.value(placed(days_of(window, given), 0, window.rates), given, factors, rates)
    return value


def own_days(window, given):
    return reference.in_days(given.rates)


def slots_from_0(window, given):
    return reference.in_days(window.rates)[:window.count]


def one_day_less(window, given):
    return days_held(window)[1:] or days_held(window)


def six_let_pass(window, given, factors, rates):
    """6 of the window's days is not checked: something is valued."""
    valued = rolling.value(window, given, factors, rates)
    if valued.refusal == 6 and reference.case_refusal(given) == 0:
        return rolling.value(placed([[0] * 60], 0, window.rates), given, factors, rates)
    return valued


def touched(window, given, factors, rates):
    """A refusal other than 13 writes a factor."""
    valued = rolling.value(window, given, factors, rates)
    return valued._replace(factors=put(factors, 0, 1)) if valued.refusal not in (0, 13) and factors else valued


def touched_on_13(window, given, factors, rates):
    valued = rolling.value(window, given, factors, rates)
    return valued._replace(rates=put(rates, -1 % len(rates), 1)) if valued.refusal == 13 and rates else valued


def wiped(window, given, factors, rates):
    """What is past entry 239 is lost."""
    valued = rolling.value(window, given, factors, rates)
    return valued if valued.refusal else valued._replace(rates=valued.rates[:240] + [0] * (len(rates) - 240))


def one_entry_past(window, given, factors, rates):
    """Writes an entry behind the lent ones."""
    valued = rolling.value(window, given, factors, rates)
    return valued if valued.refusal else valued._replace(factors=valued.factors + [1])


WRONG = {
    **{judged.__name__: judging(judged) for judged in (
        any_sums, first_sum_only, any_rates, newest_not_judged, free_slots_judged, start_zero_if_empty)},
    **{change.__name__: taken_as(change) for change in (start_turned, lower_bytes)},
    **{add.__name__: Fake(add=add) for add in (
        rates_before_15, full_before_27, oldest_replaced, sixteen_bits, last_rate_not_checked, limit_refused, not_turned, at_the_front,
        moved_to_slot_0)},
    "sums kept on adding": Fake(add=sums_kept(rolling.add)), "emptied on a refused addition": Fake(add=emptied_on_refusal(rolling.add)),
    "mended on a refused addition": Fake(add=mended_on_27(rolling.add)),
    **{drop.__name__: Fake(drop=drop) for drop in (
        newest_dropped, start_not_turned, slot_cleared, none_dropped, empty_before_27, start_0_again)},
    "sums kept on dropping": Fake(drop=sums_kept(rolling.drop)), "emptied on a refused drop": Fake(drop=emptied_on_refusal(rolling.drop)),
    "mended on a refused drop": Fake(drop=mended_on_27(rolling.drop)),
    **{applies.__name__: Fake(value=early(number, applies)) for number, applies in (
        (13, early_13), (9, early_9), (4, early_4), (6, early_6))},
    **{change.__name__: Fake(value=with_case(change)) for change in (
        own_days_replaced, own_six_unchecked, two_bytes_taken, any_number_of_bytes, own_rates_in_steps)},
    "three after nine": Fake(value=three_after_nine), "the window's days times 100": working_with(finer_window),
    **{days_of.__name__: Fake(value=with_days(days_of)) for days_of in (own_days, slots_from_0, one_day_less)},
    **{value.__name__: Fake(value=value) for value in (factors_only, six_let_pass, touched, touched_on_13, wiped, one_entry_past)},
    "an empty window from slot 1 on": Fake(empty=EMPTY._replace(start=1)),
}


# ---------------------------------------------------------------- what is reported

def scripts(rng, pool):
    """Few and many days at the ends of the ring: a day too many, days with a rate at and past a limit, and drops."""
    bad = [put(rng.choice(pool), term, rate) for term, rate in ((0, -1_001), (59, 10_001), (30, 70_000))]
    good = [put(rng.choice(pool), 59, 10_000), rng.choice(pool)]
    return [Script(placed(rng.choices(pool, k=count), start, windows.any_rates(rng)), [*bad, *good, None, None, None, *good[:1]])
            for count in (0, 1, 2, 69, 70) for start in (0, 1, 69)]


def calls(rng):
    """Valuations of a few windows, and faults of each check and of every two."""
    base = windows.bases(rng)[0]
    four_bytes = [call for _, call in windows.four_value_rows()]
    return [base._replace(lengths=(300, 241)), *windows.right_calls(rng, 2), *windows.one_fault(base), *windows.order(base), *four_bytes]


@functools.cache
def trials():
    """Scripts, windows, and valuations: the same for every engine."""
    rng = random.Random(3)
    pool = windows.day_pool(rng, 20)
    odd = [(windows.new_day(rng, pool), compare_rolling.short_call(rng, windows.odd_window(rng, pool))) for _ in range(120)]
    return scripts(rng, pool), odd, calls(rng)


def compared(engine):
    """A short comparison, up to the first kind of trials that has a difference, and what it prints."""
    comparison, printed = Comparison(engine, random.Random(4)), io.StringIO()
    some_scripts, odd, some_calls = trials()
    with contextlib.redirect_stdout(printed):
        for compare in (comparison.compare_empty, lambda: comparison.compare_scripts("scripts", some_scripts),
                        lambda: comparison.compare_windows("windows", odd), lambda: comparison.compare_calls("calls", some_calls)):
            if not comparison.different:
                compare()
    return comparison, printed.getvalue()


class Reported(unittest.TestCase):
    def test_right(self):
        for engine in (Fake(), judging(sound)):
            comparison, printed = compared(engine)
            self.assertEqual(comparison.different, 0, printed)
            self.assertEqual(set(comparison.seen), {0, *compare_rolling.REFUSALS})
            self.assertTrue(comparison.passed())

    def test_wrong(self):
        for name, engine in WRONG.items():
            with self.subTest(name):
                comparison, printed = compared(engine)
                self.assertGreater(comparison.different, 0)
                self.assertFalse(comparison.passed())
                self.assertIn("DIFFERENT", printed)

    def test_unseen(self):
        """A comparison that missed a refusal does not pass."""
        for number in compare_rolling.REFUSALS:
            comparison = Comparison(Fake(), random.Random(3))
            comparison.seen.update(set(compare_rolling.REFUSALS) - {number})
            self.assertFalse(comparison.passed())
            comparison.seen[number] += 1
            self.assertTrue(comparison.passed())

    def test_changed_list(self):
        class Changing(Fake):
            def rolling_value(self, window, fields, rates, *others):
                answer = super().rolling_value(window, fields, rates, *others)
                if rates:
                    rates[0] += 1
                return answer
        self.assertIn("handed in is changed", compared(Changing())[1])

    def test_other_file(self):
        """An engine that values windows rightly, and files otherwise."""
        class Other(Fake):
            def value(self, data, length, factors, factors_length, rates, rates_length):
                return HostValuation(0, 1)
        self.assertIn("the file with these days", compared(Other())[1])

    def test_other_answer_on_a_refusal(self):
        class Telling(Fake):
            def rolling_value(self, *arguments):
                answer = super().rolling_value(*arguments)
                answer.verdict = answer.verdict or 1
                return answer
        self.assertIn("verdict 1, not 0", compared(Telling())[1])


class Windows(unittest.TestCase):
    """tests/inputs/windows.py: what it makes is what it says."""

    def refusal(self, call):
        return rolling.value(call.window, call.given, *([0] * length for length in call.lengths)).refusal

    def test_order(self):
        expected = {2: [27, 13, 3, 9, 4, 5, 7, 8, 7, 8, 10, 11, 12, 11, 6, 4, 6],
                    4: [27, 13, 3, 9, 7, 8, 7, 8, 10, 11, 12, 4, 5, 11, 6, 4, 6]}
        bases = windows.bases(random.Random(4))
        self.assertEqual([base.given.rate_bytes for base in bases], [2, 2, 4])
        for base in bases:
            self.assertEqual(self.refusal(base), 0)
            faults, numbers = windows.faults_of(base), expected[base.given.rate_bytes]
            self.assertEqual([int(name.split()[0]) for name, _ in faults], numbers)
            for number, (_, ways) in zip(numbers, faults):
                for fault in ways:
                    self.assertEqual(self.refusal(fault(base)), number)
            self.assertEqual([self.refusal(call) for _, call in spoiling.order_rows(base, faults)], numbers[:-1])

    def test_sizes(self):
        """Those of the structs in C."""
        self.assertEqual([sizeof(one) for one in (HostWindow, HostDay, HostChanged)], [8_896, 240, 8_904])
        self.assertEqual((compare_rolling.WINDOW.size, compare_rolling.DAY.size), (8_896, 240))

    def test_rows(self):
        """Each limit on both sides, each place of the order."""
        right = [not damaged(window) for _, window in windows.right_rows()]
        self.assertEqual(right, [True, False, False, True, True, *[False] * 8])
        self.assertEqual([rolling.add(window, day).refusal for _, window, day in windows.add_rows()], [5, 27, 27])
        self.assertEqual([rolling.add(window, day).refusal for _, window, day in windows.full_rows()], [15, 0])
        self.assertEqual([rolling.drop(window).refusal for _, window in windows.drop_rows()], [16, 27])
        self.assertEqual([self.refusal(call) for _, call in windows.value_rows()],
                         [27, 13, 3, 9, 4, 5, 7, 8, 7, 8, 10, 11, 12, 11, 6, 4, 6, 0])
        self.assertEqual([self.refusal(call) for _, call in windows.four_value_rows()], [5, 0, 0, 5, 0, 6, 0, 6, 3, 12, 6, 6])
        self.assertEqual([self.refusal(call) for _, call in windows.quick_value_rows()], [27, 13, 12, 11, 6, 4, 6, 0])

    def test_steep(self):
        """As many at the limits as one past them."""
        within = [growths_within_limits(days) for days in windows.steep_days()]
        self.assertEqual((within.count(True), within.count(False)), (469, 469))

    def test_every_place(self):
        made = [call.window for call in windows.right_calls(random.Random(6), 70)]
        self.assertEqual({window.start for window in made}, set(range(70)))
        self.assertEqual({window.count for window in made}, set(range(1, 71)))
        self.assertTrue(all(growths_within_limits(days_held(window)) and not damaged(window) for window in made))

    def test_odd(self):
        """Windows of each kind: one thing changed, and still right or not."""
        rng = random.Random(7)
        pool = windows.day_pool(rng, 10)
        for change in windows.DAMAGE:
            found = {damaged(change(rng, windows.random_window(rng, pool))) for _ in range(150)}
            self.assertEqual(found, {False} if change is windows.free_rate else {False, True}, change)


if __name__ == "__main__":
    unittest.main()
