"""Runs the engine on rates in four bytes: python3 -m tests.compare.rates [--quick]

Rewritings: two-byte files, accepted and with one fault, and the same rewritten to bit 7 with every rate times 100. Both give the same
refusal, listing and buffers, and the part that holds the rates is n x 120 bytes of the one and n x 240 of the other.
Seven decimals: the reading, the listing and both buffers of four-byte files beside those of the reference, and of some of them, the ends of
the limits first, containment and width of the engine's own brackets against the exact figures over fractions.
Damage: four-byte files cut at each byte of the days field, with each byte of it changed, with both of bits 1 and 7 or neither, and with a
wrong rate behind every other fault.
Ends with 1 on any difference, or if a refusal from 1 to 12 or a verdict was not seen among the four-byte files, or too few rates with seven
decimals.
"""

import random
import sys
from itertools import islice

from tests.compare import programs
from tests.compare.counting import Comparison, asked, counts
from tests.compare.programs import engine_figures
from tests.inputs import examples, files, limits
from tests.reference import reference
from tests.reference.reference import EQUITY_BIT, Exact, containment_and_width, encode

SEED = 7
AT_A_TIME = 2_000  # this many files are put to the program in one run


def in_runs(items):
    """The items, this many at a time."""
    items = iter(items)
    while some := list(islice(items, AT_A_TIME)):
        yield some


# ---------------------------------------------------------------- rewritings

def count_at(data):
    """Where the count n of two-byte days stands."""
    return 4 if data[1] & 1 else 2


def accepted_files(rng, count):
    """Two-byte files: random ones, at the ends of the limits and of refusal 6, near the borders, and as long as can be."""
    cases = [examples.bent(), examples.up(), examples.down(), examples.long(), *files.ends(), *files.largest_products(), *files.on_steps(rng)]
    cases += files.at_forwards(rng) + [files.full_case(rng) for _ in range(count // 100)] + files.border_cases(rng, count // 5)
    cases += [files.extreme_case(rng) for _ in range(count // 5)]
    cases += [examples.random_case(rng) for _ in range(count - len(cases))]
    return [files.file_of(rng, case) for case in rng.sample(cases, count)]


def faulty_files():
    """Two-byte files with one fault of which the rewriting has the same: the map, or a number of a field. What ends early, or has bytes
    behind it, is apart, and so is another map or count that is right, since all behind it is read as something else."""
    rich = [(data[4], bad) for days in (1, 3) for data in [files.all_fields(days)] for bad in files.damaged_once(data)]
    damaged = [bad for n, bad in rich if reference.refusal(bad) == 3 or reference.refusal(bad) >= 5 and bad[1] == 0x7F and bad[4] == n]
    return damaged + [encode(examples.c1(days=examples.flat(*[0] * n)), True, False, True) for n in (0, 71)]


def cut_and_longer(data):
    """Both forms of an accepted file without the last byte, and with one more."""
    both = data, files.rewritten(data)
    return [tuple(one[:-1] for one in both), tuple(one + b"\0" for one in both)]


def pairs(rng, count):
    """Two-byte files with their rewritings."""
    accepted = accepted_files(rng, count)
    yield from ((data, files.rewritten(data)) for data in accepted)
    yield from ((data, files.rewritten(data)) for data in faulty_files())
    yield from (pair for data in accepted[:count // 20] for pair in cut_and_longer(data))


def part_in(reading):
    """Where the rates stand by the engine: offset and length."""
    return tuple(map(int, reading.split()[-3:-1]))


def part_faults(old, new, old_part, new_part):
    """Of an accepted file: the days stand behind the count byte, and at the end of the rewriting, ahead of the equity correlation."""
    n, behind = old[count_at(old)], 2 if int.from_bytes(new[:2], "big") & EQUITY_BIT else 0
    if old_part != (count_at(old) + 1, 120 * n):
        yield f"the rates of the old file stand at {old_part}, n = {n}"
    if new_part != (len(new) - behind - 240 * n, 240 * n):
        yield f"the rates of the rewritten file stand at {new_part}, n = {n}, {len(new)} bytes"


def pair_faults(old, new, answers):
    """What is wrong with the answers of a file and of its rewriting."""
    for name, data, answer in zip(("old", "rewritten"), (old, new), answers):
        if answer.reading != programs.reading(data):
            yield f"the {name} file is read as {answer.reading[:60]}.., by the reference as {programs.reading(data)[:60]}.."
    expected = reference.listing(old)
    if answers[0].listing != expected:
        yield f"the listing of the old file is {answers[0].listing}, by the reference {expected}"
    for name in ("listing", "buffers"):
        one, other = (getattr(answer, name) for answer in answers)
        if one != other:
            yield f"{name}: {one[:400]} of the old file, {other[:400]} of the rewritten one"
    if not expected.startswith(b"R"):
        yield from part_faults(old, new, *(part_in(answer.reading) for answer in answers))


def compare_rewritings(comparison, made):
    """made: pairs of a file and its rewriting."""
    count, wrong = 0, []
    for some in in_runs(made):
        answers = programs.answers([data for pair in some for data in pair])
        for (old, new), both in zip(some, zip(answers[::2], answers[1::2])):
            count += 1
            comparison.outcomes[programs.outcome(reference.listing(new))] += 1
            faults = list(pair_faults(old, new, both))
            if faults:
                wrong.append((new, "; ".join(faults)))
    comparison.report("rewritings", count, wrong)


# ---------------------------------------------------------------- seven decimals

def extremes():
    """The ends of the limits, of one day and of 70, with the largest shifts and without."""
    return [*files.ends(4), *files.largest_products(4)]


def finer_cases(rng, count):
    """Cases with four-byte days: the ends of the limits, and then, in an order that is drawn, this many with seven decimals and some without.
    Most have few days, since exact fractions of many are long."""
    few = lambda: rng.choice([1, 1, 1, 2, 2, 3])
    cases = [*map(files.finer_case, (examples.bent(), examples.up(), examples.down(), examples.long())), *files.on_steps(rng, 4)]
    cases += files.at_forwards(rng, 4) + [files.full_case(rng, 4) for _ in range(count // 30)]
    cases += [files.extreme_case(rng, few(), 4) for _ in range(count // 8)] + files.border_cases(rng, count // 4, 4)
    cases += [case for aim in files.WIDTHS for case in files.climbed(rng, aim, count // 50, 4)]
    cases += [examples.random_case(rng, few(), 4) for _ in range(count - sum(map(seven_decimals, cases)))]
    return extremes() + rng.sample(cases, len(cases))


def seven_decimals(case):
    """Whether a rate has a seventh decimal."""
    return any(rate % 10 for day in case.days for rate in day)


def compare_finer(comparison, rng, cases, exactly):
    """All three answers of each case, and containment and width of some of them."""
    batch = [files.file_of(rng, case) for case in cases]
    answers = [answer for some in in_runs(batch) for answer in programs.answers(some)]
    expected = [programs.expected(data) for data in batch]
    comparison.outcomes.update(programs.outcome(answer.listing) for answer in expected)
    comparison.same("seven decimals", batch, answers, expected)
    wrong = []
    for case, data, answer in list(zip(cases, batch, answers))[:exactly]:
        refused = answer.listing.startswith(b"R")
        broken = ["it is refused"] if refused else containment_and_width(case, Exact(case), engine_figures(case, answer))
        if broken:
            wrong.append((data, "; ".join(broken)))
    comparison.report("containment and width, exactly", exactly, wrong)


# ---------------------------------------------------------------- damage

def behind_other_faults(data):
    """A wrong count and a wrong rate behind every change of a field that stands before the days."""
    days, others = files.days_patches(data), [patch for patch in files.patches(data) if patch[0] < files.places(data)[0]]
    wrong = [patch for patch in days if reference.refusal(files.patched(data, patch)) in (4, 5, 6)]
    return [files.patched(data, first, second) for first in others for second in wrong[::5]]


def damaged(data, values):
    """A file in which all fields stand, damaged at every byte of its days field."""
    first, end = files.field_of_days(data)
    yield from (data[:length] for length in range(first, end))
    yield from files.other_bytes(data, values, first, end)
    yield from (bad + b"\0" for bad in files.damaged_once(data))
    yield from files.damaged_once(data)
    yield from behind_other_faults(data)


def damaged_files(quick):
    """Of one day and of two; the rows of the limits and of the order of checks."""
    values = [0, 1, 2, 127, 128, 255] if quick else range(256)
    yield from damaged(files.all_fields(1, 4), values)
    yield from damaged(files.all_fields(2, 4), values[::3])
    yield from (data for _, _, rows in limits.four_byte_groups() for _, data in rows)


def answers_of(data):
    """What is compared of a damaged file: all three answers where it is refused, and else the reading and the listing."""
    number = reference.refusal(data)
    return programs.refused(number) if number else programs.Answers(programs.reading(data), reference.listing(data))


def compare_damaged(comparison, made):
    count, wrong = 0, []
    for some in in_runs(made):
        for data, answer in zip(some, programs.answers(some), strict=True):
            count, right = count + 1, answers_of(data)
            comparison.outcomes[programs.outcome(right.listing)] += 1
            found = programs.compared(answer, right)
            if found != right:
                wrong.append((data, f"engine {found}, reference {right}"))
    comparison.report("damaged", count, wrong)


# ---------------------------------------------------------------- all of it

def unseen(comparison, cases, count, exactly):
    """What was not met among the four-byte files, of which this many were to have seven decimals, and the first of which were worked exactly."""
    found = [outcome for outcome in programs.OUTCOMES if not comparison.outcomes[outcome]]
    found += [] if sum(map(seven_decimals, cases)) >= count else [f"{count} cases with seven decimals"]
    return found + ([] if all(case in cases[:exactly] for case in extremes()) else ["the ends of the limits, exactly"])


def main(quick):
    rng, comparison = random.Random(SEED), Comparison()
    count, exactly = (200, 60) if quick else (3_000, 1_000)
    compare_rewritings(comparison, pairs(rng, count))
    cases = finer_cases(rng, count)
    compare_finer(comparison, rng, cases, exactly)
    compare_damaged(comparison, damaged_files(quick))
    missed = unseen(comparison, cases, count, exactly)
    print(f"{sum(map(seven_decimals, cases))} of {len(cases)} cases have rates with seven decimals")
    print(f"four-byte files: {counts(comparison.outcomes)}; not seen: {missed or 'none'}")
    print(f"{comparison.different} different")
    sys.exit(1 if comparison.different or missed else 0)


if __name__ == "__main__":
    main(asked("--quick"))
