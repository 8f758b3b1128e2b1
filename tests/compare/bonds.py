"""Cases with bonds for tests/compare/figures.py, and what the engine's own figures tell of B on all three curves.

A listing has B on the base curve alone. B on the up or the down curve is told by S1, which is the fall of B - L to that curve
where the other shift is 0. Where every rate can be moved by the shift it is also the B of the file with the rates so moved.
"""

from dataclasses import replace
from itertools import cycle
from typing import NamedTuple

from tests.inputs import examples, files
from tests.inputs.examples import c1, flat
from tests.reference import reference
from tests.reference.reference import AMOUNTS, FIELD_SHOCKS, LOWER, NO_SHOCKS, SHOCK_LIMITS, UNITS, UPPER, Case, Exact, allowed_width

COUNTS = (0, 1, 20, 21, 60)  # none, the fewest, both sides of term 20, the most
FLOW = 100_000_000
MOVED = ("up", "down")
ENOUGH = 1_000_000  # a step of rates moves the worth of such a flow by more than rounding takes


# ---------------------------------------------------------------- cases

def some_days(rng, pool, units=1):
    """Flat or bent; one day, two, 70 or a number between."""
    n = rng.choice([1, 1, 2, 70, rng.randint(2, 69)])
    if rng.random() < 0.4:
        return flat(rng.choice([-1_000 * units, 0, 10_000 * units, rng.randint(-1_000 * units, 10_000 * units)])) * n
    few = rng.sample(pool, rng.randint(1, 3))
    return [rng.choice(few) for _ in range(n)]


def bond_case(rng, pool, k, rate_bytes=2):
    """A case with k bond flows; many of its flows are 0 or as large as can be."""
    one = lambda low, high: rng.choice([low, high, rng.randint(low, high), rng.randint(low, high)])
    flows = lambda count, most: [rng.choice([0, most, rng.randint(0, most)]) for _ in range(count)]
    richest = 10 ** rng.randint(2, 11)
    return Case(ufr=rng.choice([0, 4_200, 5_000, rng.randint(0, 5_000)]), days=some_days(rng, pool, UNITS[rate_bytes]),
                pension=flows(rng.choice([1, 3, 20, 21, 60, 61, 120]), 10 ** rng.randint(0, 8)),
                bonds=flows(k, rng.choice([FLOW, FLOW, 10 ** rng.randint(0, 8)])),
                amounts={name: rng.choice([0, rng.randint(0, richest)]) for name in AMOUNTS},
                shocks=NO_SHOCKS | {name: one(0, SHOCK_LIMITS[name]) for name in FIELD_SHOCKS},
                heads=one(1, 1_000_000), pension_age=one(0, 1_200), mean_age=one(0, 1_200), rate_bytes=rate_bytes)


def with_equity_correlations(cases):
    """The cases with these equity correlations in turn, which have no part in B."""
    return [replace(case, shocks=case.shocks | {"equity_correlation": equity}) for case, equity in zip(cases, cycle((1_000, 0, 999, 437)))]


def bond_cases(rng, count, rate_bytes=2):
    """So many cases by the number of bond flows. Among the longest is the largest bond factor, of one day and of 70."""
    pool = files.day_pool(rng, 100, UNITS[rate_bytes])
    deepest = [replace(examples.deepest(), days=flat(-1_000 * UNITS[rate_bytes]) * n, rate_bytes=rate_bytes) for n in (1, 70)]
    made = lambda k, few: with_equity_correlations([bond_case(rng, pool, k, rate_bytes) for _ in range(few)])
    return {k: deepest + made(k, count - 2) if k == 60 else made(k, count) for k in COUNTS}


# ---------------------------------------------------------------- B on the moved curves

def tells(case):
    """Whether S1 tells B on both moved curves, since B moves by more than rounding takes."""
    return max(case.bonds, default=0) >= ENOUGH and case.shocks["up_shift"] > 0 and case.shocks["down_shift"] > 0


def alone(case, curve):
    """The days and bonds of a case with one shift, and with pensions that make B - L fall to that curve.

    Bonds lose on the up curve: no pensions. They gain on the down curve: the most pensions, and a UFR that leaves them dear.
    """
    shift = f"{curve}_shift"
    pension = [0] if curve == "up" else [FLOW] * 120
    return c1(ufr=0, days=case.days, rate_bytes=case.rate_bytes, pension=pension, bonds=case.bonds,
              shocks=c1().shocks | {shift: case.shocks[shift]})


def with_moved_rates(case, curve):
    """The case on that curve; None where a rate or a growth would be out of limits."""
    units = UNITS[case.rate_bytes]
    shift = units * reference.shifts(case)[curve]
    days = [[rate + shift for rate in day] for day in case.days]
    within = all(reference.rates_within_limits(day, units) for day in days) and reference.growths_within_limits(days, units)
    return replace(case, days=days) if within else None


def questions(case):
    """The cases whose figures tell B on all three curves, by name."""
    asked = {"base": case}
    for curve in MOVED:
        asked |= {f"{curve} alone": alone(case, curve), f"{curve} without bonds": replace(alone(case, curve), bonds=[])}
        moved = with_moved_rates(case, curve)
        asked |= {f"{curve} by rates": moved} if moved else {}
    return asked


def width(bracket):
    return bracket[UPPER] - bracket[LOWER]


def told_by_S1(alone, without):
    """B on the moved curve, from figures of the same pensions with and without the bonds; None where S1 does not tell it.

    With B' and L' on the moved curve S1 is (B - L) - (B' - L'), and without bonds it is L' - L. So B' is B and the second less
    the first: "differences pair a lower with an upper end", and its lower end comes of all upper ends. To the curve whose shift
    is 0 there is a fall as well, up to as large as B and L are wide; where S1 is larger the moved curve decides.
    """
    decides = lambda figures: figures["S1"][LOWER] > 0 and figures["S1"][UPPER] > width(figures["B"]) + width(figures["L"])
    if not decides(alone) or not (decides(without) or without["L"] == (0, 0)):
        return None
    return tuple(alone["B"][1 - end] + without["S1"][1 - end] - alone["S1"][1 - end] for end in (LOWER, UPPER))


class Told(NamedTuple):
    """A bracket of B, the curve, and how it was found."""
    curve: str
    way: str
    bracket: tuple | None


WAYS = [("base", "listing")] + [(curve, way) for curve in MOVED for way in ("S1", "S1 alone", "rates")]


def told(figures):
    """All brackets of B that the figures of the questions tell. "S1 alone" is S1 where no rates can be moved so far."""
    yield Told("base", "listing", figures["base"]["B"])
    for curve in MOVED:
        by_rates = figures.get(f"{curve} by rates")
        by_S1 = told_by_S1(figures[f"{curve} alone"], figures[f"{curve} without bonds"])
        yield Told(curve, "S1" if by_rates else "S1 alone", by_S1)
        if by_rates:
            yield Told(curve, "rates", by_rates["B"])


def faults(case, figures):
    """What is wrong with the brackets of B: "The widths and margins hold with WB unaltered, and they must hold for this B." """
    exact, WB = Exact(case), allowed_width(case.bonds)
    for curve, way, bracket in told(figures):
        which = f"B on the {curve} curve by {way}"
        if bracket is None:
            yield f"{which} is not told"
            continue
        lower, upper = bracket
        if not lower <= getattr(exact, curve).bond_worth(case.bonds) <= upper:
            yield f"{which}, {lower} to {upper}, is without the exact one"
        if upper - lower > WB:
            yield f"{which}, {lower} to {upper}, is wider than {WB}"
    by_curve = {curve: {bracket for other, _, bracket in told(figures) if other == curve} for curve in MOVED}
    yield from (f"two brackets of B on the {curve} curve: {sorted(both)}" for curve, both in by_curve.items()
                if len(both) > 1 and None not in both)
    for name in ("up alone", "down alone"):
        if figures[name]["B"] != figures["base"]["B"]:
            yield f"B is {figures['base']['B']}, and {figures[name]['B']} with another UFR and other pensions"
