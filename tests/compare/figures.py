"""Runs the engine beside the reference: python3 -m tests.compare.figures [--quick]

Listings of thousands of files, and of the refused ones all three answers; factors and zero rates at all 120 terms;
containment and width of the engine's own brackets against the exact figures over fractions; bonds on all three curves, likewise; the
programs that ./value runs, on inputs of odd kinds. Three quarters of the files have two-byte days, the others four-byte ones, of which
tests/compare/rates.py has more. Ends with 1 on any difference, or if a refusal from 1 to 12, a verdict or a way to find B was not seen.
"""

import os
import random
import subprocess
import sys
import tempfile
from collections import Counter

from tests.compare import bonds, programs
from tests.compare.counting import Comparison, asked, counts
from tests.compare.programs import engine_figures, money_in
from tests.inputs import examples, files, histories
from tests.reference import months, reference
from tests.reference.reference import UNITS, Exact, containment_and_width, encode

SEED = 2013

# ---------------------------------------------------------------- listings

def kinds_of(rng, some, rate_bytes):
    """Files by kind, with this many bytes a rate."""
    in_bytes = lambda cases: [files.file_of(rng, case) for case in cases]
    yield "random", files.random_files(rng, some(3_000), rate_bytes)
    extreme = [files.extreme_case(rng, rate_bytes=rate_bytes) for _ in range(some(1_000))]
    yield "ends of the limits", in_bytes([*files.ends(rate_bytes), *files.largest_products(rate_bytes), *extreme])
    yield "near the borders", in_bytes(files.border_cases(rng, some(2_000), rate_bytes))
    yield "wide brackets", in_bytes(case for aim in files.WIDTHS for _ in range(max(1, some(20)))
                                    for case in files.climbed(rng, aim, 60, rate_bytes))
    yield "70 days, 120 and 60 flows", in_bytes(files.full_case(rng, rate_bytes) for _ in range(some(100)))
    damaged = [bad for days in (1, 3) for bad in files.damaged_once(files.all_fields(days, rate_bytes))]
    yield "damaged", damaged + [data[:-1] for data in damaged] + [data + b"\0" for data in damaged]


def kinds(rng, quick):
    """Those of both days fields; a third as many with four bytes."""
    for rate_bytes, share in ((2, 1), (4, 3)):
        some = lambda count: count // share // (10 if quick else 1)
        yield from ((f"{kind}, {rate_bytes} bytes a rate", batch) for kind, batch in kinds_of(rng, some, rate_bytes))


def told_by(listing):
    """What a listing tells of the answers: all three where it is R and a number, and else itself."""
    if listing.startswith(b"R"):
        return programs.refused(int(listing.split()[1]))
    return programs.Answers(listing=listing)


def compare_listings(comparison, kind, batch):
    """Listings; of a refused file also that the buffers keep their content."""
    listings = [reference.listing(data) for data in batch]
    expected = [told_by(listing) for listing in listings]
    comparison.outcomes.update(map(programs.outcome, listings))
    comparison.same(kind, batch, map(programs.compared, programs.answers(batch), expected), expected)


# ---------------------------------------------------------------- buffers

def curve_files(rng, count):
    """Files for a comparison of the buffers, one of them refused."""
    cases = [examples.bent()]
    for rate_bytes in UNITS:
        cases += [*files.ends(rate_bytes), files.full_case(rng, rate_bytes), *files.on_steps(rng, rate_bytes)]
        cases += [make(rng, rate_bytes=rate_bytes) for make in (examples.random_case, files.extreme_case) for _ in range(count // 4)]
    return [files.file_of(rng, case) for case in cases] + [b""]


def compare_curves(comparison, batch):
    found = [answer.buffers for answer in programs.answers(batch)]
    comparison.same("factors and zero rates", batch, found, map(programs.buffers, batch))


# ---------------------------------------------------------------- containment and width

def exact_cases(rng, count):
    """Mostly of few days, since exact fractions of many are long; a twelfth is as large as can be."""
    few = lambda: rng.choice([1, 1, 1, 2, 2, 3])
    form = lambda: rng.choice([2, 2, 2, 4])  # bytes of a rate
    cases = [examples.bent(), examples.up(), examples.down()]
    cases += [examples.random_case(rng, few(), form()) for _ in range(count // 2)]
    cases += [files.extreme_case(rng, few(), form()) for _ in range(count // 8)]
    cases += files.border_cases(rng, count // 6) + files.border_cases(rng, count // 12, 4)
    return cases + [files.full_case(rng, form()) for _ in range(count // 12)]


def compare_exactly(comparison, rng, count):
    """Containment and width of the engine's brackets: the exact figures in them, their widths, the verdict."""
    cases = exact_cases(rng, count)
    batch = [files.file_of(rng, case) for case in cases]
    answers, wrong = programs.answers(batch), []
    for case, data, answer in zip(cases, batch, answers):
        broken = containment_and_width(case, Exact(case), engine_figures(case, answer))
        if broken:
            wrong.append((data, "broken: " + "; ".join(broken)))
    comparison.report("containment and width, exactly", len(batch), wrong)
    print(f"  {counts(Counter(programs.outcome(answer.listing) for answer in answers))}")


# ---------------------------------------------------------------- bonds

def compare_bonds(comparison, rng, cases, each):
    """Listings of all cases, which come by their number of bond flows; exact B of this many of each. Gives the ways to find B
    that were not seen."""
    for k, of_k in cases.items():
        finer = ", 4 bytes a rate" if of_k[0].rate_bytes == 4 else ""
        compare_listings(comparison, f"{k} bond flows{finer}", [files.file_of(rng, case) for case in of_k])
    return compare_exact_bonds(comparison, rng, [case for of_k in cases.values()
                                                 for case in list(filter(bonds.tells, of_k))[:each]])


def compare_exact_bonds(comparison, rng, cases):
    """Exact B and WB on all three curves, by the engine's own figures."""
    asked = [bonds.questions(case) for case in cases]
    batch = [files.file_of(rng, case) for questions in asked for case in questions.values()]
    answers, wrong, seen = iter(programs.answers(batch)), [], Counter()
    for case, questions in zip(cases, asked):
        figures = {name: money_in(next(answers).listing) for name in questions}
        if not all(figures.values()):
            wrong.append((files.file_of(rng, case), "refused, it or one with the same bonds"))
            continue
        broken = list(bonds.faults(case, figures))
        if broken:
            wrong.append((files.file_of(rng, case), "; ".join(broken)))
        seen.update((curve, way) for curve, way, bracket in bonds.told(figures) if bracket)
    comparison.report("exact B on three curves", len(cases), wrong)
    named = {f"{curve} by {way}": seen[curve, way] for curve, way in bonds.WAYS}
    print("  brackets of B: " + ", ".join(f"{name}: {found}" for name, found in named.items()))
    return [f"B, {name}" for name, found in named.items() if not found]


# ---------------------------------------------------------------- the programs

def run(*words, **standard_input):
    """The status of the program, and what it prints."""
    ended = subprocess.run([programs.program("ginghamowl"), *words], stdout=subprocess.PIPE, stderr=subprocess.DEVNULL, **standard_input)
    return ended.returncode, ended.stdout


def expected(listing):
    return int(listing.startswith(b"R")), listing


NO_ANSWER = 2, b""


def in_pieces(data):
    """The listing of a file that arrives in pieces through a pipe."""
    with subprocess.Popen([programs.program("ginghamowl")], stdin=subprocess.PIPE, stdout=subprocess.PIPE) as run:
        for at in range(0, len(data), 37):
            run.stdin.write(data[at:at + 37])
            run.stdin.flush()
        run.stdin.close()
        return run.stdout.read()


def failing(*words):
    """A run on an input whose reading fails: a folder."""
    with tempfile.TemporaryDirectory() as folder:
        descriptor = os.open(folder, os.O_RDONLY)
        try:
            return run(*words, stdin=descriptor)
        finally:
            os.close(descriptor)


def compare_program(comparison, rng, quick):
    batch = files.damaged_once(files.all_fields()) + [*files.long_files(rng)]
    for rate_bytes in UNITS:
        batch += files.random_files(rng, 10 if quick else 50, rate_bytes) + [encode(files.full_case(rng, rate_bytes), True, True, True)]
    comparison.same("the program", batch, (run(input=data) for data in batch), map(expected, map(reference.listing, batch)))
    few = batch[-5:]
    comparison.same("the program, in pieces", few, map(in_pieces, few), map(reference.listing, few))
    comparison.same("the program, a failing read", [b""], [failing()], [NO_ANSWER])


def with_history(call, folder):
    """The program's run on a file with a history, which stands in a file, and its start index."""
    history = os.path.join(folder, "history")
    with open(history, "wb") as file:
        file.write(call.history)
    return run("--months", history, "--start", str(call.start), input=call.file)


def compare_months_program(comparison, rng, quick):
    """Each fault alone and right calls; and a file or a history that is longer than any, and one that cannot be read."""
    base, full, *four = histories.bases()
    calls = [base, full, *four, *histories.one_fault(full), *histories.every_ufr(rng, [base.file, four[0].file])]
    calls = rng.sample(calls, 40) if quick else calls
    long = [full._replace(file=bytes(files.LONGEST[4] + 2)), full._replace(history=bytes(242)), full._replace(history=full.history * 1_000)]
    asked = [*calls, *long]
    with tempfile.TemporaryDirectory() as folder:
        comparison.same("the program with months", [call.file for call in asked], (with_history(call, folder) for call in asked),
                        [expected(months.listing(call.file, call.history, call.start)) for call in asked])
        comparison.same("the program with months, a failing read", [b""] * 2,
                        [run("--months", folder, "--start", "0", input=full.file), failing("--months", "-", "--start", "0", os.devnull)],
                        [NO_ANSWER] * 2)


# ---------------------------------------------------------------- all of it

def main(quick):
    rng, comparison = random.Random(SEED), Comparison()
    for kind, batch in kinds(rng, quick):
        compare_listings(comparison, kind, batch)
    compare_curves(comparison, curve_files(rng, 20 if quick else 200))
    compare_exactly(comparison, rng, 72 if quick else 600)
    unseen_ways = compare_bonds(comparison, rng, bonds.bond_cases(rng, 100 if quick else 1_000), 13 if quick else 125)
    unseen_ways += compare_bonds(comparison, rng, bonds.bond_cases(rng, 50 if quick else 500, 4), 8 if quick else 60)
    compare_program(comparison, rng, quick)
    compare_months_program(comparison, rng, quick)
    unseen = [outcome for outcome in programs.OUTCOMES if not comparison.outcomes[outcome]] + unseen_ways
    print(f"listings: {counts(comparison.outcomes)}; not seen: {unseen or 'none'}")
    print(f"{comparison.different} different")
    sys.exit(1 if comparison.different or unseen else 0)


if __name__ == "__main__":
    main(asked("--quick"))
