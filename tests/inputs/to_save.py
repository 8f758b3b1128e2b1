"""Cases to save, as a host hands them in: of both days fields and of neither, at each limit on both sides, with faults of two checks that
follow each other, with lists of any length, with and without what is left out, and with numbers of any size.

tests/compare/save.py puts them to the engine. tests/writers writes the rows (what, case), which are small, down as computed statements
about the definitions.
"""

from dataclasses import replace
from itertools import product

from tests.inputs import files, spoiling
from tests.inputs.host_cases import (FAULTS, NO_AMOUNTS, NO_RATE_BYTES, SMALL, SMALL_FOUR, around_six, flat, limits_of_rates, places, put,
                                     steep, values)
from tests.inputs.limits import AMOUNT, FLOW, MOST_RATE
from tests.reference import reference
from tests.reference.reference import AMOUNTS, DEFAULT_EQUITY_CORRELATION, DEFAULT_UFR, FIELD_SHOCKS

# ---------------------------------------------------------------- at the limits

def one_number(given):
    """The case with each of its numbers changed, one at a time."""
    limited = [put(given, field, at, value) for field, at, least, most in places(given) for value in values(field, least, most)]
    return limited + [replace(given, rate_bytes=value) for value in (2, 4, *NO_RATE_BYTES)]


def ends(rate_bytes=2):
    """One day, and all numbers at their lower limits; one day, and all at their upper ones."""
    least, most = (reference.given_of(case) for case in files.ends(rate_bytes))
    return least, replace(most, rates=most.rates[:60], pension=most.pension[:1], bonds=most.bonds[:1])


def end_rows(rate_bytes=2):
    least, most = ends(rate_bytes)
    yield "all at their lower limits", least
    yield "all at their upper limits", most


def limit_rows():
    """What all limits let pass, then one number at a time past its limit."""
    yield from end_rows()
    given = replace(SMALL, bonds=[0])
    for field, at, low, high in places(given):
        which = "" if at is None else f" {at}" if isinstance(at, str) else f" {at + 1}"
        for value in [high + 1] if low == 0 else [low - 1, high + 1]:
            yield f"{field}{which}: {value}", put(given, field, at, value)


def steep_cases(rate_bytes=2):
    """Refusal 6 at every term that can meet it, at its limits and one past them."""
    return [steep(n, term, forward, rate_bytes) for n, term in product((1, 2, 3, 70), range(2, 61)) for forward in around_six(n, rate_bytes)]


def forward_rows(rate_bytes=2):
    for n, term, forwards in ((1, 2, around_six(1, rate_bytes)), (2, 3, around_six(2, rate_bytes)[2:])):
        for forward in forwards:
            yield f"{n} days, term {term}: {forward}", steep(n, term, forward, rate_bytes)


# ---------------------------------------------------------------- the lengths of the lists

RATE_COUNTS = [0, 1, 59, 60, 61, 119, 120, 60 * 70 - 1, 60 * 70, 60 * 70 + 1, 60 * 71, 60 * 256, 60 * 257, 60 * 256 + 1]
PENSION_COUNTS = [0, 1, 2, 119, 120, 121, 255, 256, 257, 300, 376]
BOND_COUNTS = [0, 1, 2, 59, 60, 61, 256, 257, 300, 316]


def other_lengths(rng):
    """Every combination of these lengths, numbers within the limits."""
    flows = lambda count: [rng.randint(0, FLOW) for _ in range(count)]
    return [replace(SMALL, rates=[rng.randint(0, 100)] * rates, pension=flows(pension), bonds=flows(bonds), rate_bytes=rng.choice([2, 4]))
            for rates, pension, bonds in product(RATE_COUNTS, PENSION_COUNTS, BOND_COUNTS)]


def count_rows():
    """n of 1 to 70, m of 1 to 120, k of 0 to 60. The most that passes is shown by numbers that the next check refuses: that is quick."""
    for count in (59, 61):
        yield f"{count} rates", replace(SMALL, rates=[0] * count)
    for n in (0, 71):
        yield f"n = {n}", replace(SMALL, rates=flat(*[0] * n))
    yield "n = 70, all rates too high", replace(SMALL, rates=flat(*[MOST_RATE + 1] * 70))
    for m in (0, 1, 121):
        yield f"m = {m}", replace(SMALL, pension=[0] * m)
    yield "m = 120, all flows too high", replace(SMALL, pension=[FLOW + 1] * 120)
    for k in (0, 1, 61):
        yield f"k = {k}", replace(SMALL, bonds=[0] * k)
    yield "k = 60, all flows too high", replace(SMALL, bonds=[FLOW + 1] * 60)


# ---------------------------------------------------------------- four bytes a rate

def rate_bytes_rows():
    """The numbers around 2 and 4; a case that is right but for that."""
    for value in (0, 1, 3, 5):
        yield f"{value} bytes a rate", replace(SMALL, rate_bytes=value)


def four_rate_rows():
    """Rates of four bytes at their limits and a unit past them, in the first and the last place. One that passes 5 may not pass 6."""
    least, most = limits_of_rates(4)
    for at in (0, 59):
        for rate in (least - 1, least, most, most + 1):
            yield f"rate {at + 1}: {rate}", put(SMALL_FOUR, "rates", at, rate)


# ---------------------------------------------------------------- the order of checks

def order_rows(given=SMALL, faults=FAULTS):
    """Two faults each, of checks that follow each other."""
    return spoiling.order_rows(given, faults)


# ---------------------------------------------------------------- what is left out

def omissions(given):
    """The case with what may be left out: there, left out, and close to it."""
    amounts = [NO_AMOUNTS, *(NO_AMOUNTS | {name: 1} for name in AMOUNTS), dict.fromkeys(AMOUNTS, AMOUNT)]
    shocks = [given.shocks | {"equity_correlation": equity} for equity in (DEFAULT_EQUITY_CORRELATION, DEFAULT_EQUITY_CORRELATION - 1, 0)]
    return [replace(given, ufr=ufr, bonds=bonds, amounts=one, shocks=other)
            for ufr in (DEFAULT_UFR, DEFAULT_UFR - 1, DEFAULT_UFR + 1, 0) for bonds in ([], [0], [0] * 60)
            for one in amounts for other in shocks]


def omission_rows():
    """A case with another number in every field, each combination of the four fields left out and there, but for those that differ in all
    four from one that is among them in one. A UFR that is there is one step below 4,200 or one above it; a bond flow of 0 is no empty list;
    the amounts have a 0 in every place but the last; an equity correlation is 0 or one below 1,000."""
    given = replace(SMALL, rates=flat(-500, 100), pension=[1_000_000, 7], heads=100, pension_age=780, mean_age=460)
    for other, bonds, currency in product((False, True), ([], [0]), (0, 5)):
        equity = (other + len(bonds) + bool(currency)) % 2 == 1
        there = [name for name, stands in (("UFR", other), ("bonds", bonds), ("amounts", currency), ("equity", equity)) if stands]
        ufr = DEFAULT_UFR + (0 if not other else 1 if bonds else -1)
        correlation = DEFAULT_EQUITY_CORRELATION if not equity else 0 if bonds else DEFAULT_EQUITY_CORRELATION - 1
        yield "with " + (", ".join(there) or "no optional field"), replace(
            given, ufr=ufr, bonds=bonds, amounts=NO_AMOUNTS | {"currency": currency},
            shocks=dict(zip(FIELD_SHOCKS, range(1, 13))) | {"equity_correlation": correlation})


# ---------------------------------------------------------------- numbers of any size

def wild(rng, given):
    """The case with some of its numbers of any size; one in ten has another number of bytes a rate."""
    for field, at, _, _ in rng.sample(list(places(given)), rng.randint(1, 3)):
        bits = rng.randint(0, 31 if field == "rates" else 64)
        value = rng.getrandbits(bits) if bits else 0
        given = put(given, field, at, rng.choice([value, -value]) if field == "rates" else value)
    return replace(given, rate_bytes=rng.choice([2, 4, *NO_RATE_BYTES])) if rng.random() < 0.1 else given
