"""Runs the program `searches` beside the reference: python3 -m tests.compare.search [--quick]

Both searches of all 120 terms, the steps left after each test number for number with the halving in Python; what
METHOD, The search for a zero rate, promises of them, of the program's own numbers alone; and for 40 terms of chosen curves a
scan of all 22,001 steps: the rate that METHOD defines is among the steps left after each test, it is the one left after 15,
and it is the engine's own zero rate (the program `answers`). Ends with 1 on any difference.
"""

import random
import sys
from concurrent.futures import ProcessPoolExecutor

from tests.compare import programs
from tests.compare.counting import Comparison, asked
from tests.compare.programs import engine_figures
from tests.inputs import examples, files
from tests.inputs.examples import c1, flat
from tests.reference import reference
from tests.reference.reference import LOWER, TESTED_STEPS, Refusal

SEED = 22_001
SHOWN = 3  # this many faults of a file are printed
PROCESSES = 2  # that scan


def title(search):
    return f"{'lower' if search.end == LOWER else 'upper'} rate of term {search.term}"


def shown(left):
    return f"{left.first} to {left.last}"


def accepted(found):
    return not isinstance(found, Refusal)


def with_faults(batch, faults):
    """The files that have faults, as Comparison.report takes them; faults is a list a file."""
    return [(data, "; ".join(of_file[:SHOWN]) + f" ({len(of_file)} in all)")
            for data, of_file in zip(batch, faults, strict=True) if of_file]


# ---------------------------------------------------------------- number for number

def differences(found, expected):
    """Where the searches of a file are not the reference's."""
    if not accepted(found) or not accepted(expected):
        told = lambda answer: "accepted" if accepted(answer) else f"R {answer.number}"
        return [] if found == expected else [f"engine {told(found)}, reference {told(expected)}"]
    return [f"{title(search)}, {tests} tests: engine {shown(left)}, reference {shown(wanted)}"
            for search, right in zip(found, expected, strict=True)
            for tests, (left, wanted) in enumerate(zip(search.left, right.left, strict=True)) if left != wanted]


def compare_halvings(comparison, kind, batch, found):
    expected = map(programs.expected_searches, batch)
    faults = [differences(*both) for both in zip(found, expected, strict=True)]
    comparison.report(kind, len(batch), with_faults(batch, faults))


# ---------------------------------------------------------------- the promise

def broken(search):
    """What a search does not keep of the promise."""
    start, *_, end = search.left
    if start != (0, 22_000):
        yield f"{title(search)} starts with {shown(start)}"
    for tests, (before, left) in enumerate(zip(search.left, search.left[1:]), 1):
        if left.first < before.first or left.last > before.last:
            yield f"{title(search)}, {tests} tests: {shown(left)} is not within {shown(before)}"
    for tests, left in enumerate(search.left):
        count = left.last - left.first + 1
        if not 1 <= count <= reference.most_left(tests):
            yield f"{title(search)}, {tests} tests: {count} steps are left, not 1 to {reference.most_left(tests)}"
    if end.first != end.last:
        yield f"{title(search)}: {shown(end)} is not one step"


def compare_promise(comparison, batch, found):
    faults = [[fault for search in searches for fault in broken(search)] if accepted(searches) else []
              for searches in found]
    comparison.report("the promise", len(batch), with_faults(batch, faults))


# ---------------------------------------------------------------- scans

def scanned_curves():
    """(case, terms): 40 terms of negative, low, high and bent curves, on both sides of 20, of 60, and up to 120."""
    day = lambda rates: [[rates(t) for t in range(1, 61)]]
    return [(examples.bent(), (1, 20, 21, 60, 61, 120)),
            (c1(days=flat(-1_000), ufr=0), (1, 20, 61, 120)),  # the lowest
            (c1(days=flat(10_000), ufr=5_000), (2, 21, 60, 120)),  # the highest
            (c1(days=flat(-500), ufr=5_000), (3, 19, 22, 62)),
            (c1(), (1, 20, 21, 59)),  # 0, where both results are 10^12
            (c1(days=flat(4_200)), (5, 20, 61, 90)),  # a whole step at every term
            (c1(days=flat(100, 101), ufr=0), (1, 2, 21)),  # a mean that is no step
            (c1(days=day(lambda t: 60 - 15 * t), ufr=0), (4, 20, 40)),  # falling, soon below 0
            (c1(days=[files.zigzag(20, True)], ufr=0), (8, 21, 41)),  # the growths at the ends of refusal 6
            (c1(days=[files.zigzag(1, False)], ufr=5_000), (1, 20)),
            (examples.long(), (10, 60, 119))]


def scan_pairs():
    """(file, term)."""
    in_bytes = lambda case: reference.encode(case, True, bool(case.bonds), True)
    return [(in_bytes(case), t) for case, terms in scanned_curves() for t in terms]


def scanned(pair):
    """Both rates of a term: "test steps z from -2,000 to 20,000", all of them."""
    data, t = pair
    return reference.zero_rate(reference.rounded_factors(reference.read(data), last=t)[t], t, by="scan")


def scan(pairs):
    """The longest scans first, so that both processes end at the same time."""
    order = sorted(range(len(pairs)), key=lambda at: -pairs[at][1])
    with ProcessPoolExecutor(PROCESSES) as pool:
        rates = dict(zip(order, pool.map(scanned, [pairs[at] for at in order])))
    return [rates[at] for at in range(len(pairs))]


def scan_faults(search, rate, engine_rate):
    """Where the rate of a scan is not the one that a search finds, or not the engine's."""
    step = TESTED_STEPS.index(rate)
    for tests, left in enumerate(search.left):
        if not left.first <= step <= left.last:
            yield f"{title(search)}, {tests} tests: {shown(left)} lack step {step}, which a scan finds"
    if search.left[-1] != (step, step):
        yield f"{title(search)}: {shown(search.left[-1])} in the end, and a scan finds step {step}"
    if engine_rate != rate:
        yield f"{title(search)}: the engine gives {engine_rate}, and a scan {rate}"


def pair_faults(pair, rates, searches, answer):
    """Of both rates of a term."""
    data, t = pair
    if not accepted(searches):
        return [f"refused with {searches.number}"]
    of_term = [search for search in searches if search.term == t]
    engine_rates = engine_figures(reference.read(data), answer).zero_rates[t]
    return [fault for parts in zip(of_term, rates, engine_rates, strict=True) for fault in scan_faults(*parts)]


def compare_scans(comparison, pairs):
    batch = [data for data, _ in pairs]
    found = zip(pairs, scan(pairs), programs.searches(batch), programs.answers(batch), strict=True)
    comparison.report("scans", len(batch), with_faults(batch, [pair_faults(*parts) for parts in found]))


# ---------------------------------------------------------------- all of it

def whole_steps(rng):
    """Flat curves: at the UFR, so that the rates of every term are a whole step, and away from it."""
    at_ufr = [c1(days=flat(rate), ufr=rate) for rate in (0, 1, 750, 3_500, 4_999, 5_000)]
    return at_ufr + files.on_steps(rng)


def kinds(rng, quick):
    """Files by kind."""
    some = lambda count: count // 10 if quick else count
    in_bytes = lambda cases: [files.file_of(rng, case) for case in cases]
    yield "random", files.random_files(rng, some(400))
    yield "ends of the limits", in_bytes([*files.ends(), *(files.extreme_case(rng) for _ in range(some(200)))])
    yield "whole steps", in_bytes(whole_steps(rng))
    yield "chosen", in_bytes(case for case, _ in scanned_curves())
    yield "70 days", in_bytes(files.full_case(rng) for _ in range(some(30)))
    finer = [examples.random_case(rng, rate_bytes=4) for _ in range(some(100))] + [files.full_case(rng, 4)]
    yield "four bytes a rate", in_bytes([*finer, *files.ends(4), *files.on_steps(rng, 4)])
    yield "damaged", [b"", *rng.sample(files.damaged_once(files.all_fields()), some(100)), files.all_fields() + b"\0"]


def main(quick):
    rng, comparison, everything, all_found = random.Random(SEED), Comparison(), [], []
    for kind, batch in kinds(rng, quick):
        found = programs.searches(batch)
        compare_halvings(comparison, kind, batch, found)
        everything, all_found = everything + batch, all_found + found
    compare_promise(comparison, everything, all_found)
    compare_scans(comparison, scan_pairs())
    searched = [search.left[-1].first for searches in filter(accepted, all_found) for search in searches]
    refused = len(all_found) - sum(map(accepted, all_found))
    print(f"{len(searched)} searches, from {min(searched)} to {max(searched)} in the end; {refused} files refused")
    print(f"{comparison.different} different")
    sys.exit(1 if comparison.different or not refused else 0)


if __name__ == "__main__":
    main(asked("--quick"))
