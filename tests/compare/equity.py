"""Runs the engine on correlations between the equity classes: python3 -m tests.compare.equity [--quick]

Files: readings and listings of files whose field holds 0, 1, 500, 999, 1,000 or any number, and of files without it, with either days
field, half of them with assets near L + S; damaged fields, and the number that each is refused with.
Roots: of small cases the exact S2 and S, which are compared by squaring once and twice, in the engine's brackets; the widths of both; the
verdict, and where it is ONBESLIST the margins.
Borders: of funds the cash at which the verdict is no longer RESERVETEKORT, and that from which it is VRIJ VERMOGEN, found by bisection on
the engine; the verdicts on both sides of both, rounded and exact.
Without the field: every figure and the verdict are those of the older form, in which S2 is the plain sum of four losses.
Ends with 1 on any difference, or if a kind of file, a refusal, a verdict or a kind of root was not seen.
"""

import random
import sys
from collections import Counter
from dataclasses import replace
from fractions import Fraction
from math import isqrt
from types import SimpleNamespace
from typing import NamedTuple

from tests.compare import programs
from tests.compare.counting import Comparison, asked
from tests.inputs import examples, files
from tests.reference import reference
from tests.reference.reference import (AMOUNTS, DEFAULT_EQUITY_CORRELATION, EQUITY, EQUITY_BIT, LOWER, MONEY, ONBESLIST, RESERVETEKORT,
                                       UNITS, UPPER, VRIJ_VERMOGEN, Exact, Rounded, encode)

SEED = 8
FIXED = 0, 1, 500, 999, 1_000
FIELDS = [*map(str, FIXED), "any", "absent"]  # what the field holds
MOST_CASH = 10 ** 11


# ---------------------------------------------------------------- funds

class File(NamedTuple):
    """A file with what its field holds, its case, and whether its assets are near L + S."""
    field: str
    case: reference.Case
    near: bool
    data: bytes


def correlation_of(rng, field):
    if field == "absent":
        return DEFAULT_EQUITY_CORRELATION
    return rng.randint(0, 1_000) if field == "any" else int(field)


def liabilities(case):
    """Lower L in euros."""
    return reference.worth(case.pension, reference.rounded_factors(case, 0, len(case.pension)))[LOWER] // 100


def invested(rng, case, least=0):
    """The case with equity and property of parts of its liabilities, of which some classes may be empty, and with falls of these that are
    not 0; the other amounts are small."""
    worth, shares = liabilities(case), rng.choice([(1, 1, 1, 1), (5, 3, 1, 2), (1, 0, 0, 3), (0, 7, 0, 0), (2, 0, 3, 1)])
    part = lambda share: rng.randint(least * worth * share // (10 * sum(shares)), 8 * worth * share // (10 * sum(shares)))
    amounts = {name: rng.choice([0, rng.randint(0, worth // 50)]) for name in AMOUNTS} | dict(zip(EQUITY, map(part, rng.sample(shares, 4))))
    falls = {f"{name}_fall": rng.choice([1_000, rng.randint(250, 999), rng.randint(250, 450)]) for name in EQUITY}
    return replace(case, amounts={name: min(amount, MOST_CASH) for name, amount in amounts.items()}, shocks=case.shocks | falls)


def with_cash(case, cash):
    return replace(case, amounts=case.amounts | {"cash": cash})


def near_second_border(rng, case):
    """The case with few bonds, and with cash with which A is within some euros of L + S, mostly next to it, where that can be."""
    case = replace(case, bonds=[flow // 200 for flow in case.bonds])
    rounded = Rounded(with_cash(case, 0))
    cash = (rounded.L[LOWER] + rounded.S[LOWER] - rounded.A[LOWER]) // 100 + rng.choice([-2, 0, 0, 1, 1, 3])
    return with_cash(case, cash) if 0 <= cash <= MOST_CASH else case


def with_correlation(rng, case, field):
    return replace(case, shocks=case.shocks | {"equity_correlation": correlation_of(rng, field)})


def file_with(rng, case, field, near):
    """The field stands unless it is absent, whatever it holds."""
    *others, _ = examples.presence(rng, case)
    return File(field, case, near, encode(case, *others, field != "absent"))


def small_case(rng, rate_bytes):
    """One day and up to 40 flows, since exact fractions of more are long; the bonds are worth less than the pensions."""
    largest = 10 ** rng.randint(4, 8)
    flows = lambda count, most: [rng.randint(0, most) for _ in range(count)]
    case = examples.random_case(rng, 1, rate_bytes)
    return replace(case, pension=flows(rng.choice([1, 2, 5, 25, 40]), largest), bonds=flows(rng.choice([0, 1, 5]), largest // 40))


def funds(rng, count, made):
    """This many files of cases that made gives by the bytes of a rate: what the field holds, and whether the assets are near L + S, in
    turn."""
    found = []
    for at in range(count):
        rate_bytes, near, field = tuple(UNITS)[at % 2], at // 2 % 2 == 0, FIELDS[at // 4 % len(FIELDS)]
        case = with_correlation(rng, invested(rng, made(rng, rate_bytes)), field)
        found.append(file_with(rng, near_second_border(rng, case) if near else case, field, near))
    return found


def some_case(rng, rate_bytes):
    return examples.random_case(rng, rng.choice([1, 1, 2, 3]), rate_bytes)


# ---------------------------------------------------------------- files

def compare_files(comparison, found):
    """Readings and listings."""
    batch = [file.data for file in found]
    expected = [programs.Answers(programs.reading(data), reference.listing(data)) for data in batch]
    answers = map(programs.compared, programs.answers(batch), expected)
    comparison.outcomes.update(programs.outcome(answer.listing) for answer in expected)
    comparison.same("files", batch, answers, expected)


def damaged(data):
    """(number, file): the equity correlation of a file whose last field it is, damaged, and the number that refuses the file."""
    other_bits = lambda bits: (int.from_bytes(data[:2], "big") ^ bits).to_bytes(2, "big") + data[2:]
    yield from ((11, data[:-2] + thousandths.to_bytes(2, "big")) for thousandths in (1_001, 1_002, 0x07D0, 0x8000, 0xFC18, 0xFFFF))
    yield 11, data[:-2] + b"\x03\xe9\0"  # before 2
    yield from ((1, data[:-length]) for length in (1, 2))
    yield 1, data[:-2] + b"\xff"
    yield from ((2, data + behind) for behind in (b"\0", b"\0\0", data[-2:]))
    yield 2, other_bits(EQUITY_BIT)
    yield from ((3, other_bits(1 << bit)) for bit in range(9, 16))
    yield from ((3, other_bits(EQUITY_BIT | 1 << bit)) for bit in range(9, 16))


def compare_damaged(comparison, found):
    """Of the files with a field."""
    made = [bad for file in found if file.field != "absent" for bad in damaged(file.data)]
    batch, expected = [data for _, data in made], [programs.refused(number) for number, _ in made]
    comparison.outcomes.update(f"R {number}" for number, _ in made)
    comparison.same("damaged fields", batch, programs.answers(batch), expected)


# ---------------------------------------------------------------- roots

def kind_of_root(exact):
    """Whether the exact S is compared by squaring twice, or S2 is a fraction, or has no part with S1."""
    if exact.S_squared.factor == 0:
        return "S2 without S1"
    square = Fraction(exact.S2_squared)
    parts = square.numerator, square.denominator
    return "S2 a fraction" if all(isqrt(part) ** 2 == part for part in parts) else "S2 a surd"


ROOTS = "S2 without S1", "S2 a fraction", "S2 a surd"


def bracket_faults(case, exact, figures):
    """Whether S2 and S are in their brackets, and how wide these are: S2 is one root, rounded once."""
    WL, WB = reference.allowed_width(case.pension), reference.allowed_width(case.bonds)
    for name, most in (("S2", 1), ("S", 3 * WL + 2 * WB + 8)):
        lower, upper = figures[name]
        if not reference.in_bracket(exact, name, (lower, upper)):
            yield f"exact {name} is not in {lower} to {upper}"
        if upper - lower > most:
            yield f"{name} is {upper - lower} wide, more than {most}"


def verdict_faults(case, exact, verdict):
    """exact has the exact A, L and S squared."""
    if verdict != ONBESLIST:
        right = reference.exact_verdict(exact.A, exact.L, exact.S_squared)
        return [] if verdict == right else [f"{verdict}, and the exact verdict is {right}"]
    widths = reference.allowed_width(case.pension), reference.allowed_width(case.bonds)
    return [] if reference.within_margins(exact, *widths) else ["ONBESLIST, and no border is within its margin"]


def verdict_in(listing):
    return programs.outcome(listing).removeprefix("V ")


def compare_exactly(comparison, found):
    """The kinds of roots and the verdicts that were seen."""
    seen, wrong = Counter(), []
    for file, answer in zip(found, programs.answers([file.data for file in found]), strict=True):
        exact, figures, verdict = Exact(file.case), programs.money_in(answer.listing), verdict_in(answer.listing)
        seen.update([kind_of_root(exact), verdict])
        told = [*bracket_faults(file.case, exact, figures), *verdict_faults(file.case, exact, verdict)] if figures else []
        faults = told if figures else ["it is refused"]
        if faults:
            wrong.append((file.data, "; ".join(faults)))
    comparison.report("roots, exactly", len(found), wrong)
    return seen


# ---------------------------------------------------------------- borders

class Fund(NamedTuple):
    """A fund without cash, and the cash between which its verdict goes from RESERVETEKORT to VRIJ VERMOGEN."""
    case: reference.Case
    short: int
    free: int


def bordered(rng, rate_bytes):
    """A fund whose buffer is well above 5 percent of its liabilities; with more flows more euros are undecided."""
    while True:
        case = replace(small_case(rng, rate_bytes), pension=[rng.randint(10 ** 5, 10 ** 8) for _ in range(rng.choice([1, 5, 20, 60, 80]))])
        case = with_cash(with_correlation(rng, invested(rng, case, least=5), rng.choice(FIELDS)), 0)
        rounded = Rounded(case)
        A, L, S = rounded.A, rounded.L, rounded.S
        short, free = -(-(21 * L[UPPER] - 20 * A[LOWER]) // 2_000), -(-(L[UPPER] + S[UPPER] - A[LOWER]) // 100) + 1_000
        if 0 <= short and 100 * short + A[UPPER] < L[LOWER] + S[LOWER] and free <= MOST_CASH:
            return Fund(case, short, free)


def verdicts(cases):
    """Those that the engine gives."""
    return [verdict_in(answer.listing) for answer in programs.answers([encode(case, True, bool(case.bonds), True) for case in cases])]


def bisected(found, passes):
    """Of each fund the least cash whose verdict passes, which that at the lower end does not, and each above it does."""
    low, high = [fund.short for fund in found], [fund.free for fund in found]
    while any(one - other > 1 for one, other in zip(high, low)):
        middle = [(one + other) // 2 for one, other in zip(low, high)]
        for at, verdict in enumerate(verdicts([with_cash(fund.case, cash) for fund, cash in zip(found, middle)])):
            low[at], high[at] = (low[at], middle[at]) if passes(verdict) else (middle[at], high[at])
    return high


def border_faults(fund, exact, changes, found):
    """found: (cash, the engine's verdict) on both sides of both changes, from the least cash on; exact is that of the fund without cash."""
    for cash, verdict in found:
        case = with_cash(fund.case, cash)
        right = Rounded(case).verdict
        if verdict != right:
            yield f"cash {cash}: {verdict}, rounded {right}"
        moved = SimpleNamespace(A=exact.A + 100 * cash, L=exact.L, S_squared=exact.S_squared)
        yield from (f"cash {cash}: {fault}" for fault in verdict_faults(case, moved, verdict))
    first, last = changes
    between = [ONBESLIST, ONBESLIST] if first < last else [VRIJ_VERMOGEN, RESERVETEKORT]
    if [verdict for _, verdict in found] != [RESERVETEKORT, *between, VRIJ_VERMOGEN]:
        yield f"the verdicts on both sides of {first} and {last} are {found}"


def compare_borders(comparison, found):
    """How many funds have a verdict of ONBESLIST at some cash, and how many have none."""
    changes = list(zip(bisected(found, lambda verdict: verdict != RESERVETEKORT),
                       bisected(found, lambda verdict: verdict == VRIJ_VERMOGEN)))
    tried = [(fund, cash) for fund, pair in zip(found, changes) for change in pair for cash in (change - 1, change)]
    told = verdicts([with_cash(fund.case, cash) for fund, cash in tried])
    wrong, seen = [], Counter()
    for at, (fund, pair) in enumerate(zip(found, changes)):
        beside = [(cash, verdict) for (_, cash), verdict in zip(tried[4 * at:4 * at + 4], told[4 * at:4 * at + 4])]
        faults = list(border_faults(fund, Exact(fund.case), pair, beside))
        seen["undecided in between" if pair[0] < pair[1] else "none undecided"] += 1
        if faults:
            wrong.append((encode(fund.case, True, bool(fund.case.bonds), True), "; ".join(faults)))
    comparison.report("borders", len(found), wrong)
    return seen


BORDERS = "undecided in between", "none undecided"


# ---------------------------------------------------------------- without the field

def older_listing(case):
    """The listing of the older form: S2 is the sum of the four losses, rounded once, and S is made of it."""
    rounded = Rounded(case)
    loss = sum(case.amounts[name] * case.shocks[f"{name}_fall"] for name in EQUITY)
    rounded.S2 = reference.rounded_once(loss, 10)
    rounded.S = reference.rounded_S([getattr(rounded, f"S{number}") for number in range(1, 7)], case.shocks["correlation"])
    lines = [programs.row([name, *getattr(rounded, name)]) for name in MONEY]
    return b"".join(lines) + programs.row(["V", reference.rounded_verdict(rounded.A, rounded.L, rounded.S)])


def compare_older(comparison, found):
    """Files without the field, and such whose field holds 1,000: the older form and, with the field, the same again. How many there are."""
    old = [file for file in found if file.case.shocks["equity_correlation"] == DEFAULT_EQUITY_CORRELATION]
    answers = [answer.listing for answer in programs.answers([file.data for file in old])]
    comparison.same("the older form", [file.data for file in old], answers, [older_listing(file.case) for file in old])
    return Counter("older form, absent" if file.field == "absent" else "older form, 1,000" for file in old)


OLDER = "older form, absent", "older form, 1,000"


# ---------------------------------------------------------------- all of it

def unseen(comparison, found, seen):
    """What was not met."""
    kinds = Counter((file.field, file.case.rate_bytes, file.near) for file in found)
    missed = [f"{field}, {rate_bytes} bytes a rate, {'near' if near else 'anywhere'}"
              for field in FIELDS for rate_bytes in UNITS for near in (True, False) if not kinds[field, rate_bytes, near]]
    outcomes = [f"R {number}" for number in (1, 2, 3, 11)] + [f"V {verdict}" for verdict in reference.VERDICTS]
    missed += [outcome for outcome in outcomes if not comparison.outcomes[outcome]]
    return missed + [kind for kind in (*ROOTS, *reference.VERDICTS, *BORDERS, *OLDER) if not seen[kind]]


def main(quick):
    rng, comparison = random.Random(SEED), Comparison()
    count, exactly, few = (280, 60, 8) if quick else (3_000, 1_000, 200)
    found = funds(rng, count, some_case)
    compare_files(comparison, found)
    compare_damaged(comparison, found[::10])
    seen = compare_exactly(comparison, funds(rng, exactly, small_case))
    seen += compare_borders(comparison, [bordered(rng, tuple(UNITS)[at % 2]) for at in range(few)])
    seen += compare_older(comparison, found)
    missed = unseen(comparison, found, seen)
    print(", ".join(f"{name}: {number}" for name, number in sorted([*comparison.outcomes.items(), *seen.items()])))
    print(f"not seen: {missed or 'none'}")
    print(f"{comparison.different} different")
    sys.exit(1 if comparison.different or missed else 0)


if __name__ == "__main__":
    main(asked("--quick"))
