"""Runs the engine's `ginghamowl_save` beside the reference: python3 -m tests.compare.save [--quick]

Each case is saved into a lent buffer of random bytes, which is compared whole afterwards, and with it the bytes on both sides, which are
not lent, and the lists that were handed in. What is saved of an accepted case is read back: the engine accepts it and finds the rates in
it, the reference reads the case from it, and of some the engine's valuation is that of the longest file of the case. The rates have two
bytes or four, or a number of bytes that is refused. Ends with 1 on any difference, or if one of the refusals 3 to 12 and 14 was not seen.
"""

import glob
import os
import random
import struct
import sys
from collections import Counter
from dataclasses import replace
from ctypes import c_int64, c_uint8, c_uint64

from tests import ROOT
from tests.compare import programs
from tests.compare.counting import asked
from tests.compare.lending import HandedIn, loaded, shown
from tests.inputs import files, host_cases, spoiling, to_save
from tests.reference import reference
from tests.reference.reference import UNITS, Refusal, Saved, encode

SEED = 14
REFUSALS = [*range(3, 13), 14]
GUARD = 32  # this many bytes on each side of the lent buffer are compared with it
ENTRIES = 242  # of a lent buffer for factors or rates: two more than are written
VALUED = 10  # every this many cases whose file was shortened are valued
SHOWN = 5  # this many differences of a kind are printed


# ---------------------------------------------------------------- the engine

def save(engine, given, memory):
    """Has the engine save a case into memory, of which GUARD bytes at each end are not lent. Its answer, with the whole memory, and
    whether the lists that were handed in are as before."""
    handed_in, memory = HandedIn(given), bytearray(memory)
    out = (c_uint8 * (len(memory) - 2 * GUARD)).from_buffer(memory, GUARD)
    answer = engine.save(*handed_in.arguments, out, len(out))
    return Saved(answer.refusal, answer.written, bytes(memory)), handed_in.kept()


def valued(engine, data):
    """All that a valuation answers, and both buffers."""
    factors, rates = (c_uint64 * ENTRIES)(*[7] * ENTRIES), (c_int64 * ENTRIES)(*[7] * ENTRIES)
    valuation = engine.value(data, len(data), factors, ENTRIES, rates, ENTRIES)
    return valuation.refusal, valuation.verdict, [*valuation.figures], [*factors], [*rates]


# ---------------------------------------------------------------- the comparison

def difference(found, expected):
    """The two answers, and where the memory is another."""
    other = [at - GUARD for at, (byte, right) in enumerate(zip(found.after, expected.after)) if byte != right]
    return (f"engine {found.refusal}, {found.written} bytes; reference {expected.refusal}, {expected.written} bytes; "
            f"{len(other)} bytes differ" + (f", from {other[0]} of the buffer on" if other else ""))


def file_faults(engine, given, data):
    """What is wrong with the saved bytes of a case as a file."""
    if engine.refusal(data, len(data)) != 0:
        yield "the engine refuses the saved file"
    part = engine.rates_part(data, len(data))
    letter = "h" if given.rate_bytes == 2 else "i"
    if data[part.offset:part.offset + part.length] != struct.pack(f">{len(given.rates)}{letter}", *given.rates):
        yield "the engine finds other rates in the saved file"
    if reference.read(data) != reference.case_of(given):
        yield "the reference reads another case from the saved file"


def longest(given):
    """The file of a case in which every field stands that may."""
    return encode(reference.case_of(given), True, bool(given.bonds), True, True)


class Comparison:
    """Counts what was seen and what differs."""

    def __init__(self, engine, rng):
        self.engine, self.rng = engine, rng
        self.seen, self.different, self.shortened = Counter(), 0, 0

    def faults(self, given, room):
        """What is wrong with the saving of a case into a buffer of this many bytes."""
        memory = self.rng.randbytes(GUARD + room + GUARD)
        expected = reference.save(given, memory[GUARD:GUARD + room])
        expected = expected._replace(after=memory[:GUARD] + expected.after + memory[GUARD + room:])
        found, kept = save(self.engine, given, memory)
        self.seen[expected.refusal] += 1
        if found != expected:
            yield difference(found, expected)
        if not kept:
            yield "a list that was handed in is changed"
        if expected.refusal == 0:
            data = found.after[GUARD:GUARD + found.written]
            yield from file_faults(self.engine, given, data)
            yield from self.value_faults(given, data)

    def value_faults(self, given, data):
        """Of some cases whose longest file is longer than the saved one."""
        longer = longest(given)
        if len(longer) == len(data):
            return
        self.shortened += 1
        if self.shortened % VALUED == 0 and valued(self.engine, data) != valued(self.engine, longer):
            yield "the longest file of the case is valued otherwise"

    def compare(self, kind, trials):
        """trials: cases, each with the length of the lent buffer."""
        wrong = [(given, room, faults) for given, room in trials if (faults := list(self.faults(given, room)))]
        self.different += len(wrong)
        for given, room, faults in wrong[:SHOWN]:
            print(f"DIFFERENT, {kind}, a buffer of {room} bytes: {'; '.join(faults)}\n  {shown(given)}")
        print(f"{kind}: {len(trials)} cases, {len(wrong)} different", flush=True)


# ---------------------------------------------------------------- cases and buffers

def needed(given):
    """The length of the saved bytes; 0 where the case is refused."""
    return 0 if reference.case_refusal(given) else len(reference.shortest(given))


def roomy(rng, cases):
    """A buffer that is long enough where the case is accepted, often just so."""
    return [(given, needed(given) + rng.choice([0, 1, 2, 500])) for given in cases]


def one_fault(given):
    """Each fault alone, in the shortest buffers, in one a byte too short without the fault, and in longer ones."""
    length = needed(given)
    return [(fault(given), room) for _, ways in host_cases.faults_of(given) for fault in ways
            for room in (0, 1, length - 1, length, length + 500)]


def every_room(given):
    return [(given, room) for room in range(needed(given) + 3)]


def some_rooms(rng, given, count):
    """The shortest buffers, those around the length needed, and some between and beyond."""
    length = needed(given)
    rooms = [*range(4), *range(length - 8, length + 9), *rng.sample(range(length), count), 2 * length]
    return [(given, room) for room in rooms]


def stored_files():
    """The accepted files of the tree: those of cases/, and those that the program `answers` is run on."""
    with open(os.path.join(ROOT, "crates", "answers", "stdin"), "rb") as file:
        stored = programs.unframed(file.read())
    for path in sorted(glob.glob(os.path.join(ROOT, "cases", "*.case"))):
        with open(path, "rb") as file:
            stored.append(file.read())
    return [data for data in stored if not isinstance(reference.read(data), Refusal)]


def resaved():
    """The cases of the files in the tree, each with a buffer as long as its file: that is always enough."""
    trials = [(reference.given_of(reference.read(data)), len(data)) for data in stored_files()]
    assert all(needed(given) <= room for given, room in trials)
    return trials


def accepted_kinds(rng, cases, rate_bytes, some):
    """Cases within the limits."""
    extreme = [reference.given_of(files.extreme_case(rng, rng.randint(1, 70), rate_bytes)) for _ in range(some(1_500))]
    yield "random", roomy(rng, cases)
    yield "ends of the limits", roomy(rng, [*to_save.ends(rate_bytes), *extreme])


def rows(rate_bytes):
    """The rows of which tests/writers makes computed statements."""
    if rate_bytes == 2:
        made = (to_save.limit_rows(), to_save.forward_rows(), to_save.count_rows(), to_save.order_rows(), to_save.omission_rows(),
                to_save.rate_bytes_rows())
    else:
        made = (to_save.end_rows(4), to_save.forward_rows(4), to_save.four_rate_rows(),
                to_save.order_rows(host_cases.SMALL_FOUR, host_cases.FOUR_BYTE_FAULTS))
    return [given for rows in made for _, given in rows]


def limit_kinds(rng, bases, rate_bytes, some):
    """Cases at the limits and past them."""
    two_faults = lambda given: spoiling.two_faults(given, host_cases.faults_of(given))
    several_faults = lambda given: spoiling.several_faults(rng, given, host_cases.faults_of(given))
    yield "rows", roomy(rng, rows(rate_bytes))
    yield "one number", roomy(rng, [one for given in bases for one in to_save.one_number(given)])
    yield "numbers of any size", roomy(rng, [to_save.wild(rng, rng.choice(bases)) for _ in range(some(2_000))])
    for kind, cases in (("refusal 6", to_save.steep_cases(rate_bytes)), ("other lengths", to_save.other_lengths(rng))):
        yield kind, roomy(rng, rng.sample(cases, some(len(cases))))
    yield "one fault", [trial for given in bases[:3] for trial in one_fault(given)]
    yield "two faults", roomy(rng, [one for given in bases[:4] for one in two_faults(given)])
    yield "several faults", roomy(rng, [several_faults(rng.choice(bases)) for _ in range(some(2_000))])


def form_kinds(rng, bases, full, quick):
    """What is left out, and the length of the buffer."""
    yield "left out or there", roomy(rng, [one for given in bases for one in to_save.omissions(given)])
    small = [replace(given, rate_bytes=full.rate_bytes) for _, given in to_save.omission_rows()][:1 if quick else 8]
    yield "every length of the buffer", [trial for given in [bases[0], *small] for trial in every_room(given)]
    long = [full] if quick else bases[2:]
    yield "long files", [trial for given in long for trial in some_rooms(rng, given, 10 if quick else 400)]


def kinds_of(rng, quick, rate_bytes):
    """(kind, cases with the lengths of the buffer), with this many bytes a rate."""
    some = lambda count: count // 20 if quick else count
    pool = files.day_pool(rng, some(400), UNITS[rate_bytes])
    cases = [host_cases.random_case(rng, pool, rate_bytes) for _ in range(some(6_000))]
    small = replace(host_cases.SMALL, rate_bytes=rate_bytes)
    rich, full = map(reference.given_of, (reference.read(files.all_fields(3, rate_bytes)), files.full_case(rng, rate_bytes)))
    assert needed(full) == files.LONGEST[rate_bytes]
    bases = [small, rich] if quick else [small, rich, full, *cases[:5]]
    yield from accepted_kinds(rng, cases, rate_bytes, some)
    yield from limit_kinds(rng, bases, rate_bytes, some)
    yield from form_kinds(rng, bases, full, quick)


def kinds(rng, quick):
    """Those of both days fields."""
    yield "files in the tree", resaved()
    for rate_bytes in UNITS:
        yield from ((f"{kind}, {rate_bytes} bytes a rate", trials) for kind, trials in kinds_of(rng, quick, rate_bytes))


def main(engine, quick):
    rng = random.Random(SEED)
    comparison = Comparison(engine, rng)
    for kind, trials in kinds(rng, quick):
        comparison.compare(kind, trials)
    seen = comparison.seen
    print(f"{sum(seen.values())} cases, {comparison.different} different; accepted {seen[0]}; refused "
          + ", ".join(f"{number}: {seen[number]}" for number in REFUSALS))
    if comparison.different or not all(seen[number] for number in REFUSALS):
        sys.exit(1)


if __name__ == "__main__":
    quick = asked("--quick")
    main(loaded("save", "refusal", "rates_part", "value"), quick)
