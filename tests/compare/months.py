"""Runs the engine's `ginghamowl_ufr_of` and `ginghamowl_value_with_months` beside the reference: python3 -m tests.compare.months [--quick]

Each history with its start index is put to both functions, with files of both days fields. Both lent buffers, and the entries around them,
which are not lent, are compared whole; the file, the history and the bytes around them are as before. What an accepted call gives is also
what the engine gives of the file that has the UFR found in its field. Ends with 1 on any difference, or if one of the refusals (REFUSALS) was
not seen.
"""

import random
import sys
from collections import Counter
from ctypes import c_uint8

from tests.compare.counting import asked
from tests.compare.lending import Counting, answer_difference, expected_answer, into_buffers, loaded, value_file
from tests.inputs import examples, files, histories
from tests.inputs.histories import Call
from tests.reference import months
from tests.reference.months import HISTORY, MONTHS, Ufr, months_of, with_ufr_field
from tests.reference.reference import UNITS

SEED = 19
REFUSALS = [*range(1, 14), 17, 18, 19]
UFR_REFUSALS = REFUSALS[-3:]  # of a history alone
FUNCTIONS = "value", "ufr_of", "value_with_months"
AROUND = 32  # this many bytes on each side of a file or a history are compared with it


# ---------------------------------------------------------------- the engine

class LentBytes:
    """Bytes that the engine may only read, with others on both sides of them."""

    def __init__(self, rng, data):
        self.memory = bytearray(rng.randbytes(AROUND) + data + rng.randbytes(AROUND))
        self.before = bytes(self.memory)
        lent = (c_uint8 * len(data)).from_buffer(self.memory, AROUND)
        self.arguments = lent or None, len(data)  # NULL where the length is 0

    def kept(self):
        """Whether all bytes are as before."""
        return bytes(self.memory) == self.before


def ufr_by(engine, history, start):
    """The engine's answer for bytes that are lent."""
    answer = engine.ufr_of(*history.arguments, start)
    return Ufr(answer.refusal, answer.ufr)


def value_by(engine, file, history, start, memories):
    """Likewise, of a valuation."""
    call = lambda *buffers: engine.value_with_months(*file.arguments, *history.arguments, start, *buffers)
    return into_buffers(call, memories)


# ---------------------------------------------------------------- the comparison

def history_shown(history, start):
    total = f" with the sum {sum(months_of(history))}" if len(history) == HISTORY else ""
    return f"history of {len(history)} bytes, {history[:6].hex(' ')} ..{total}, start {start}"


def call_shown(call):
    file = f"file of {len(call.file)} bytes, {call.file[:5].hex(' ')} .."
    return f"{file}, buffers of {call.lengths}, {history_shown(call.history, call.start)}"


class Comparison(Counting):
    """Of histories."""

    def __init__(self, engine, rng):
        super().__init__(engine, rng, REFUSALS)
        self.seen_alone = Counter()

    def ufr_faults(self, trial):
        """What is wrong with the UFR of one history and start index."""
        history, start = trial
        expected, lent = months.ufr_of(history, start), LentBytes(self.rng, history)
        self.seen_alone[expected.refusal] += 1
        found = ufr_by(self.engine, lent, start)
        if found != expected:
            yield f"ufr_of: refusal {found.refusal}, UFR {found.ufr}, not {expected.refusal}, {expected.ufr}"
        if not lent.kept():
            yield "ufr_of: the history is changed"

    def value_faults(self, call):
        """What is wrong with one valuation."""
        memories = self.memories(call.lengths)
        expected = expected_answer(lambda *buffers: months.value(call.file, call.history, call.start, *buffers), memories)
        self.seen[expected.refusal] += 1
        file, history = (LentBytes(self.rng, data) for data in (call.file, call.history))
        found = value_by(self.engine, file, history, call.start, memories)
        if found != expected:
            yield f"value_with_months: {answer_difference(found, expected)}"
        for name, lent in (("file", file), ("history", history)):
            if not lent.kept():
                yield f"value_with_months: the {name} is changed"
        if expected.refusal == 0:
            yield from self.named_file_faults(call, memories, expected)

    def named_file_faults(self, call, memories, expected):
        """"The UFR found is used as if it stood in the file's UFR field"."""
        found = value_file(self.engine, with_ufr_field(call.file, months.ufr_of(call.history, call.start).ufr), memories)
        if found != expected:
            yield f"the file with this UFR: {answer_difference(found, expected)}"

    def call_faults(self, call):
        yield from self.ufr_faults((call.history, call.start))
        yield from self.value_faults(call)

    def passed(self):
        return super().passed() and all(self.seen_alone[number] for number in UFR_REFUSALS)

    def compare_ufrs(self, kind, trials):
        self.compare(kind, trials, self.ufr_faults, lambda trial: history_shown(*trial))

    def compare_calls(self, kind, calls):
        self.compare(kind, calls, self.call_faults, call_shown)


# ---------------------------------------------------------------- what is compared

def with_files(rng, accepted, trials):
    """Valuations of histories with their start indices, each with one of these files."""
    length = lambda: rng.choice([240, 241, 300])
    return (Call(rng.choice(accepted), history, start, (length(), length())) for history, start in trials)


def compare_rows(comparison, rng, accepted):
    """The rows of which tests/writers makes computed statements."""
    rows = [(history, start) for _, history, start in histories.ufr_rows()]
    comparison.compare_calls("rows of histories", with_files(rng, accepted, rows))
    makers = histories.quick_value_rows, histories.value_rows, histories.four_value_rows
    comparison.compare_calls("rows of valuations", [call for rows in makers for _, call in rows()])


def compare_histories(comparison, rng, accepted, some):
    """Kinds of histories; the few accepted files are worked once for each UFR."""
    for kind, made in (("borders of rounding", histories.border_histories), ("one month at or past a limit", histories.one_month)):
        trials = [(history, rng.randrange(MONTHS)) for history in made(rng)]
        comparison.compare_ufrs(f"{kind}, the UFR alone", trials)
        comparison.compare_calls(kind, with_files(rng, accepted, rng.sample(trials, some(len(trials)))))
    other = [(history, rng.choice(histories.STARTS)) for _ in range(10) for history in histories.other_lengths(rng)]
    comparison.compare_calls("other lengths", with_files(rng, accepted, other))
    every = [(histories.random_history(rng), start) for _ in range(3) for start in histories.STARTS]
    comparison.compare_calls("every start", with_files(rng, accepted, rng.sample(every, some(len(every)))))
    comparison.compare_calls("random histories", with_files(rng, accepted, (
        (histories.random_history(rng), histories.any_start(rng)) for _ in range(some(5_000)))))


def compare_files(comparison, rng, some):
    """Kinds of files."""
    calls = histories.every_ufr(rng, histories.accepted_files(rng, 10))
    comparison.compare_calls("every UFR", rng.sample(calls, some(len(calls))))
    random_files = (files.file_of(rng, examples.random_case(rng, rate_bytes=rng.choice(list(UNITS)))) for _ in range(some(500)))
    comparison.compare_calls("random files", (
        Call(file, histories.random_history(rng), rng.randrange(MONTHS), (240, 240)) for file in random_files))
    comparison.compare_calls("damaged files", histories.damaged_calls(rng, some(2_000)))


def compare_order(comparison, rng, some):
    bases = histories.bases()
    comparison.compare_calls("one fault", (call for base in bases for call in histories.one_fault(base)))
    pairs = [call for base in bases for call in histories.two_faults(base)]
    comparison.compare_calls("two faults", rng.sample(pairs, some(len(pairs))))
    comparison.compare_calls("several faults", (histories.several_faults(rng, rng.choice(bases)) for _ in range(some(2_000))))


def main(engine, quick):
    rng = random.Random(SEED)
    comparison = Comparison(engine, rng)
    some = lambda count: count // 50 if quick else count
    accepted = [call.file for call in histories.bases()]
    compare_rows(comparison, rng, accepted)
    compare_histories(comparison, rng, accepted, some)
    compare_files(comparison, rng, some)
    compare_order(comparison, rng, some)
    seen, alone = comparison.seen, comparison.seen_alone
    refused = lambda counted, numbers: ", ".join(f"{number}: {counted[number]}" for number in numbers)
    print(f"{sum(alone.values())} histories; a UFR found {alone[0]}; refused {refused(alone, UFR_REFUSALS)}")
    print(f"{sum(seen.values())} valuations, {comparison.different} different; accepted {seen[0]}; refused {refused(seen, REFUSALS)}")
    sys.exit(0 if comparison.passed() else 1)


if __name__ == "__main__":
    quick = asked("--quick")
    main(loaded(*FUNCTIONS), quick)
