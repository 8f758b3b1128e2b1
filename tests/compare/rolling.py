"""Runs the engine's `ginghamowl_rolling_` functions beside the reference: python3 -m tests.compare.rolling [--quick]

Scripts of additions and drops, with the whole struct compared after each change. Damaged and odd windows: 27 or not, by all three functions
that take a window. Valuations with cases of both days fields, with both lent buffers and the entries around them, which are not lent,
compared whole; what a window gives is also what the engine gives of a file with its days, and of another window that holds the same. Ends
with 1 on any difference, or if one of the refusals (REFUSALS) was not seen.
"""

import random
import struct
import sys
from collections import Counter
from typing import NamedTuple

from tests.compare.counting import asked
from tests.compare.lending import (Counting, HandedIn, HostDay, HostWindow, answer_difference, expected_answer, into_buffers, loaded,
                                   places, shown, value_file)
from tests.inputs import files, host_cases, spoiling, windows
from tests.reference import reference, rolling
from tests.reference.rolling import EMPTY, RATES, TERMS, Window, days_held

SEED = 27
REFUSALS = [*range(3, 14), 15, 16, 27]
FUNCTIONS = "value", "rolling_empty", "rolling_add", "rolling_drop", "rolling_value"
CHANGES = 200  # of a script


# ---------------------------------------------------------------- the engine

WINDOW = struct.Struct(f"<QQ{RATES}h{TERMS}q")
DAY = struct.Struct(f"<{TERMS}i")


def packed(window):
    """The bytes of the struct."""
    return WINDOW.pack(window.count, window.start, *window.rates, *window.sums)


def unpacked(data):
    count, start, *numbers = WINDOW.unpack(data)
    return Window(count, start, numbers[:RATES], numbers[RATES:])


def in_host(window):
    return HostWindow.from_buffer_copy(packed(window))


def changed(engine, window, day):
    """The engine's answer to a day that is added, or to a drop where it is None: the refusal, and the bytes of the window."""
    if day is None:
        answer = engine.rolling_drop(in_host(window))
    else:
        answer = engine.rolling_add(in_host(window), HostDay.from_buffer_copy(DAY.pack(*day)))
    return answer.refusal, bytes(answer.window)


def value_window(engine, window, given, memories):
    """The engine's answer, and whether the lists that were handed in are as before."""
    handed_in = HandedIn(given)
    answer = into_buffers(lambda *buffers: engine.rolling_value(in_host(window), *handed_in.arguments, *buffers), memories)
    return answer, handed_in.kept()


# ---------------------------------------------------------------- the reference, in the same shape

def expected_change(window, day):
    return rolling.drop(window) if day is None else rolling.add(window, day)


def expected_value(window, given, memories):
    return expected_answer(lambda *buffers: rolling.value(window, given, *buffers), memories)


# ---------------------------------------------------------------- differences in words

def window_difference(found, expected):
    """Of two windows as bytes."""
    parts = []
    for name, one, right in zip(Window._fields, unpacked(found), unpacked(expected)):
        if one != right:
            parts.append(f"{name}: {places(one, right) if isinstance(one, list) else f'{one}, not {right}'}")
    return ", ".join(parts)


def window_shown(window):
    return f"window of {window.count} days from slot {window.start} on, sums {window.sums[:3]} .."


# ---------------------------------------------------------------- the comparison

class Script(NamedTuple):
    window: Window
    changes: list  # days to add, and None for a drop


class Comparison(Counting):
    """Of windows."""

    def __init__(self, engine, rng):
        super().__init__(engine, rng, REFUSALS)
        self.damaged = Counter()

    # Changes

    def change_faults(self, window, day, expected):
        """What is wrong with one change of a window."""
        self.seen[expected.refusal] += 1
        refusal, found = changed(self.engine, window, day)
        what, right = "drop" if day is None else "add", packed(expected.window)
        if refusal != expected.refusal:
            yield f"{what}: refusal {refusal}, not {expected.refusal}"
        if found != right:
            yield f"{what}, refusal {refusal}: {window_difference(found, right)}"

    def script_faults(self, script):
        """Up to the first change that goes wrong."""
        window = script.window
        for at, day in enumerate(script.changes, 1):
            expected = expected_change(window, day)
            faults = list(self.change_faults(window, day, expected))
            if faults:
                return [f"change {at}, {window_shown(window)}: {fault}" for fault in faults]
            window = expected.window
        return []

    # Valuations

    def call_faults(self, call):
        """What is wrong with one valuation."""
        window, given, lengths = call
        memories = self.memories(lengths)
        expected = expected_value(window, given, memories)
        self.seen[expected.refusal] += 1
        found, kept = value_window(self.engine, window, given, memories)
        if found != expected:
            yield f"value: {answer_difference(found, expected)}"
        if not kept:
            yield "value: a list that was handed in is changed"
        if expected.refusal in (0, 6) and reference.case_refusal(given) == 0:
            yield from self.same_days_faults(window, given, memories, expected)

    def same_days_faults(self, window, given, memories, expected):
        """A file with the days of the window, and another window that holds them: "gives what the file with these days gives"."""
        days = days_held(window)
        found = value_file(self.engine, files.file_of(self.rng, rolling.case_with(given, days)), memories)
        if found != expected:
            yield f"the file with these days: {answer_difference(found, expected)}"
        found, _ = value_window(self.engine, windows.placed_anywhere(self.rng, days), given, memories)
        if found != expected:
            yield f"another window with these days: {answer_difference(found, expected)}"

    def window_faults(self, trial):
        """27 or not, by every function that takes a window: a day added, a drop, and a valuation with a buffer that is too short."""
        day, call = trial
        self.damaged[rolling.damaged(call.window)] += 1
        for change in (day, None):
            yield from self.change_faults(call.window, change, expected_change(call.window, change))
        yield from self.call_faults(call)

    # Reports

    def compare_empty(self):
        found, right = bytes(self.engine.rolling_empty()), packed(EMPTY)
        if found != right:
            self.different += 1
            print(f"DIFFERENT, an empty window: {window_difference(found, right)}")

    def compare_scripts(self, kind, scripts):
        self.compare(kind, scripts, self.script_faults, lambda script: window_shown(script.window))

    def compare_windows(self, kind, trials):
        self.compare(kind, trials, self.window_faults, lambda trial: window_shown(trial[1].window))

    def compare_calls(self, kind, calls):
        show = lambda call: f"buffers of {call.lengths}, {window_shown(call.window)}, case with {shown(call.given)}"
        self.compare(kind, calls, self.call_faults, show)


# ---------------------------------------------------------------- what is compared

def compare_rows(comparison, rng):
    """The rows of which tests/writers makes computed statements."""
    comparison.compare_windows("rows of windows", [(windows.SOME, short_call(rng, window)) for _, window in windows.right_rows()])
    changes = [*windows.add_rows(), *windows.full_rows(), *windows.change_rows(), *((*row, None) for row in windows.drop_rows())]
    comparison.compare_scripts("rows of changes", [Script(window, [day]) for _, window, day in changes])
    comparison.compare_calls("rows of valuations", [call for _, call in (*windows.value_rows(), *windows.four_value_rows())])


def compare_changes(comparison, rng, some):
    pool = windows.day_pool(rng, 300)
    script = lambda window: Script(window, windows.changes(rng, pool, CHANGES))
    comparison.compare_empty()
    comparison.compare_scripts(f"scripts of {CHANGES} changes, from an empty window", (script(EMPTY) for _ in range(some(2_000))))
    comparison.compare_scripts(f"scripts of {CHANGES} changes, from another window", (
        script(windows.random_window(rng, pool)) for _ in range(some(200))))


def short_call(rng, window):
    """A valuation of the window with a buffer that is too short, and often with a case that is refused."""
    given = rng.choice([host_cases.SMALL, host_cases.SMALL_FOUR])
    given = given if rng.random() < 0.5 else spoiling.several_faults(rng, given, host_cases.faults_of(given))
    return windows.Call(window, given, rng.choice([(239, 240), (240, 239), (0, 300), (300, 0), (0, 0)]))


def compare_damage(comparison, rng, some):
    pool = windows.day_pool(rng, 100)
    comparison.damaged.clear()
    comparison.compare_windows("damaged and odd windows", (
        (windows.new_day(rng, pool), short_call(rng, windows.odd_window(rng, pool))) for _ in range(some(20_000))))
    print(f"  27 for {comparison.damaged[True]}, not for {comparison.damaged[False]}")


def compare_valuations(comparison, rng, some):
    comparison.compare_calls("valuations", windows.right_calls(rng, some(2_000)))
    steep = windows.steep_days()
    comparison.compare_calls("refusal 6 of the window", (
        windows.Call(windows.placed_anywhere(rng, days), host_cases.SMALL, (240, 240)) for days in rng.sample(steep, some(len(steep)))))


def compare_order(comparison, rng, some):
    bases = windows.bases(rng)
    comparison.compare_calls("one fault", (call for base in bases for call in windows.one_fault(base)))
    comparison.compare_calls("the order of checks", (call for base in bases for call in windows.order(base)))
    pairs = [call for base in bases for call in spoiling.two_faults(base, windows.faults_of(base))]
    comparison.compare_calls("two faults", rng.sample(pairs, some(len(pairs))))
    several = lambda base: spoiling.several_faults(rng, base, windows.faults_of(base))
    comparison.compare_calls("several faults", (several(rng.choice(bases)) for _ in range(some(2_000))))


def main(engine, quick):
    rng = random.Random(SEED)
    comparison = Comparison(engine, rng)
    some = lambda count: count // 50 if quick else count
    compare_rows(comparison, rng)
    for compare in (compare_changes, compare_damage, compare_valuations, compare_order):
        compare(comparison, rng, some)
    seen = comparison.seen
    print(f"{sum(seen.values())} calls, {comparison.different} different; accepted {seen[0]}; refused "
          + ", ".join(f"{number}: {seen[number]}" for number in REFUSALS))
    sys.exit(0 if comparison.passed() else 1)


if __name__ == "__main__":
    quick = asked("--quick")
    main(loaded(*FUNCTIONS), quick)
