"""Cases for the tests: fixed ones, whose numbers tests/writers writes down, and random ones."""

from dataclasses import replace

from tests.reference import reference
from tests.reference.reference import (AMOUNTS, DEFAULT_EQUITY_CORRELATION, FIELD_SHOCKS, LOWER, NO_SHOCKS, SHOCK_LIMITS, SHOCKS, Case,
                                       Exact, Rounded)


def flat(*rates):
    """One day per rate, that rate at every term."""
    return [[rate] * 60 for rate in rates]


def c1(**changes):
    """File C1's case, with the named fields changed."""
    case = Case(ufr=4_200, days=flat(0), pension=[1_000_000], bonds=[],
                amounts=dict.fromkeys(AMOUNTS, 0) | {"cash": 1_100_000}, shocks=dict(NO_SHOCKS),
                heads=100, pension_age=780, mean_age=460)
    return replace(case, **changes)


# ---------------------------------------------------------------- fixed cases

def bent():
    """Three days that rise, fall, rise and fall with the term; the short rates are negative."""
    def middle(t):
        if t <= 15:
            return -350 + 60 * t
        if t <= 30:
            return 550 - 25 * (t - 15)
        if t <= 45:
            return 175 + 40 * (t - 30)
        return 775 - 15 * (t - 45)
    terms = range(1, 61)
    days = [[middle(t) for t in terms],
            [middle(t) + 3 + 7 * t % 11 for t in terms],
            [middle(t) - 37 + 5 * t % 13 for t in terms]]
    return c1(ufr=4_321, days=days)


def three_days(thirds):
    """Three unlike days with s(t) = 60 x thirds(t) + 20.

    The mean is never a whole step, yet P(t) ÷ N loses a factor 20, which keeps the fractions short.
    """
    terms = range(1, 61)
    return [[20 * thirds(t) - 13 - t for t in terms],
            [20 * thirds(t) + 31 + 2 * t for t in terms],
            [20 * thirds(t) + 2 - t for t in terms]]


def up():
    """The bonds are longer than the pensions, so the up curve hurts. RESERVETEKORT."""
    return Case(
        ufr=4_321,
        days=three_days(lambda t: 10 + t if t <= 30 else 40 - (t - 30) // 3),
        pension=[31_415_927, 27_182_818, 16_180_339],
        bonds=[9_876_543, 0, 45_678_912, 0, 34_567_891],
        amounts=dict(zip(AMOUNTS, [1_234_567, 765_433, 543_211, 987_659, 321_987, 654_321, 111_213, 61_718_191])),
        shocks=dict(zip(SHOCKS, [320, 180, 251, 353, 307, 149, 457, 349, 509, 401, 2_345, 73, 1_000])),
        heads=1_237, pension_age=804, mean_age=541)


def down():
    """The pensions outweigh the bonds, so the down curve hurts; S5 exceeds the credit. VRIJ VERMOGEN."""
    return Case(
        ufr=3_879,
        days=three_days(lambda t: t - 8 if t <= 25 else 17 + (t - 25) // 2),
        pension=[28_284_271, 37_416_573, 54_772_255],
        bonds=[7_071_067, 5_550_123, 0, 3_210_987, 0],
        amounts=dict(zip(AMOUNTS, [12_345_679, 8_765_431, 4_321_987, 6_543_217, 2_109_873, 1_357_913, 198_765_437,
                                   10_293_847])),
        shocks=dict(zip(SHOCKS, [140, 260, 239, 337, 419, 157, 211, 353, 890, 613, 8_765, 437, 1_000])),
        heads=4_321, pension_age=816, mean_age=577)


def long():
    """Two days, 120 pension and 60 bond flows, most of them past term 60 large, and both shifts: WL and WB are in the thousands."""
    terms = range(1, 61)
    return Case(
        ufr=3_333,
        days=[[200 + 17 * t for t in terms], [260 + 15 * t + t % 2 for t in terms]],
        pension=[1_000_000 + 10_007 * t for t in terms] + [100_000_000 - 30_011 * (t - 60) for t in range(61, 121)],
        bonds=[90_000_000 - 700_001 * t for t in terms],
        amounts=dict(zip(AMOUNTS, [2_345_678_901, 987_654_321, 123_456_789, 345_678_912, 45_678_913, 567_891_234, 678_912_345,
                                   789_123_456])),
        shocks=dict(zip(SHOCKS, [250, 410, 251, 353, 307, 149, 457, 349, 509, 401, 2_345, 73, 1_000])),
        heads=54_321, pension_age=811, mean_age=563)


def deepest():
    """The lowest rates, the largest down shift and one bond flow, at term 60: no bond factor is larger than that of the down
    curve, which decides S1. VRIJ VERMOGEN; with that flow on the adjusted curve it would be DEKKINGSTEKORT."""
    return c1(days=flat(-1_000), pension=[100_000_000] * 20, bonds=[0] * 59 + [100_000_000],
              amounts=dict.fromkeys(AMOUNTS, 0) | {"cash": 2_300_000_000},
              shocks=NO_SHOCKS | {"up_shift": 270, "down_shift": 1_000})


def past_20():
    """C1 with one bond flow, at term 21, and shifts of 1 and 0.5 percent: B is 1,000,000 euros on the base curve, whose rates
    are 0."""
    return c1(bonds=[0] * 20 + [1_000_000], shocks=c1().shocks | {"up_shift": 1_000, "down_shift": 500})


def both_fall(up_shift, down_shift):
    """C1 with one bond flow, at term 2, between pension flows at terms 1 and 3, and shifts: B - L falls on both curves, since the sums of
    flow × term are equal and the pensions lie further apart."""
    return c1(pension=[30_000_000, 0, 20_000_000], bonds=[0, 45_000_000], shocks=c1().shocks | {"up_shift": up_shift, "down_shift": down_shift})


def apart(equity_correlation=437):
    """The fund of up(), with equity classes that do not fall together: S2 is a root, which is no whole number of cents."""
    return replace(up(), shocks=up().shocks | {"equity_correlation": equity_correlation})


def four_classes(equity_correlation):
    """A small fund that loses 2,107, 4,983, 2,691 and 2,567 tenths of a cent on its four equity classes."""
    return c1(pension=[7], amounts=dict.fromkeys(AMOUNTS, 0) | {"mature": 7, "emerging": 11, "private": 13, "property": 17}, heads=1,
              pension_age=0, mean_age=0, shocks=NO_SHOCKS | {"mature_fall": 301, "emerging_fall": 453, "private_fall": 207,
                                                             "property_fall": 151, "equity_correlation": equity_correlation})


def finer():
    """A fund with one four-byte day, no rate of which is a whole step, with both shifts, and another number in every field."""
    return replace(up(), days=[[4_321 * t - 12_370 for t in range(1, 61)]], bonds=[9_876_543, 0, 45_678_912], rate_bytes=4)


def rounded_off(case):
    """A case of four-byte days with its rates rounded to the nearest step, in two bytes."""
    return replace(case, days=[[(rate + 50) // 100 for rate in day] for day in case.days], rate_bytes=2)


def before_rewriting():
    """A small two-byte case whose rates are all unlike, with every optional field."""
    return c1(ufr=4_321, days=[[7 * t - 100 for t in range(1, 61)]], bonds=[5], amounts=dict.fromkeys(AMOUNTS, 0) | {"currency": 258})


def no_flows():
    """C1 with three pension flows and two bond flows of 0: Q is 0 on both sides."""
    return c1(pension=[0, 0, 0], bonds=[0, 0])


def whole_quotient():
    """C1 with a flow of 100,000,000 at term 5, whose 4 x t x t x flow is 10^10: Q is 1, with nothing to round."""
    return c1(pension=[0, 0, 0, 0, 100_000_000])


def undecided(border, exact):
    """C1 with flat 100 whose rounded verdict is undecided at a border, and whose exact verdict is the one given: the first such flow.

    border gives 20 x A - 21 x L or the like of a rounded working: the cash is set so that it comes close to 0 from below or above.
    """
    flow = 1_000_000
    while True:
        case = c1(days=flat(100), pension=[flow])
        cash = border(Rounded(replace(case, amounts=dict.fromkeys(AMOUNTS, 0))))
        case = replace(case, amounts=case.amounts | {"cash": cash})
        if Rounded(case).verdict == reference.ONBESLIST and Exact(case).verdict == exact:
            return case
        flow += 1


def first_border(rounded):
    """The least cash in euros with which 20 x A reaches 21 x lower L."""
    return -(-21 * rounded.L[LOWER] // 2_000)


def second_border(rounded):
    """The least cash in euros with which A reaches lower L + lower S."""
    return -(-(rounded.L[LOWER] + rounded.S[LOWER]) // 100)



# ---------------------------------------------------------------- random cases

def random_days(rng, n, units=1):
    """n days that pass refusals 5 and 6; this many units of a rate are a step.

    Each term draws a growth in units; the rate is the floor of their mean, which moves the growth
    that refusal 6 sees by less than the term, so by less than 60.
    """
    least, most = -1_000 * units, 10_000 * units

    def day():
        rates, total = [], 0
        for t in range(1, 61):
            if t % 15 == 1:
                low, high = sorted(rng.randint(-1_940 * units, 11_940 * units) for _ in range(2))
            drawn = rng.randint(low, high)
            if not least <= (total + drawn) // t <= most:
                drawn = rng.randint(least, most)
            total += drawn
            rates.append(min(max(total // t, least), most))
        return rates
    return [day() for _ in range(n)]


def random_equity_correlation(rng):
    """The ends, next to them, between, and any; 1,000, which a file may leave out, twice as often."""
    drawn = rng.randint(0, DEFAULT_EQUITY_CORRELATION)
    return rng.choice([0, 1, 250, 500, 999, DEFAULT_EQUITY_CORRELATION, DEFAULT_EQUITY_CORRELATION, drawn, drawn])


def random_shocks(rng, one):
    """Shocks of which one(least, most) draws each but the last."""
    return {name: one(0, SHOCK_LIMITS[name]) for name in FIELD_SHOCKS} | {"equity_correlation": random_equity_correlation(rng)}


def random_case(rng, days=None, rate_bytes=2):
    """A case within all limits; often with an end of a limit in it, and often near a border."""
    units = reference.UNITS[rate_bytes]

    def one(low, high):
        return rng.choice([low, high, rng.randint(low, high), rng.randint(low, high)])
    flows = lambda count: [rng.randint(0, largest) for _ in range(count)]
    while True:
        largest, richest = 10 ** rng.randint(2, 8), 10 ** rng.randint(2, 11)
        amounts = [rng.choice([0, richest, rng.randint(0, richest)]) for _ in AMOUNTS]
        case = Case(ufr=one(0, 5_000), days=random_days(rng, days or rng.choice([1, 1, 2, 2, 3, 3, 3, 7]), units),
                    pension=flows(one(1, 120)), bonds=flows(rng.choice([0, 0, rng.randint(1, 60)])),
                    amounts=dict(zip(AMOUNTS, amounts)),
                    shocks=random_shocks(rng, one),
                    heads=one(1, 1_000_000), pension_age=one(0, 1_200), mean_age=one(0, 1_200), rate_bytes=rate_bytes)
        # Clamped rates may break refusal 6; such a draw is thrown away.
        if reference.growths_within_limits(case.days, units):
            return near_border(rng, case) if rng.random() < 0.6 else case


def near_border(rng, case):
    """The case with its cash set so that A comes close to 21/20 L or to L + S, where that can be."""
    rounded = Rounded(replace(case, amounts=case.amounts | {"cash": 0}))
    border = rng.choice([rounded.L[LOWER] * 21 // 20, rounded.L[LOWER] + rounded.S[LOWER]])
    cash = (border - rounded.A[LOWER]) // 100 + rng.randint(-2, 2)
    return replace(case, amounts=case.amounts | {"cash": cash}) if 0 <= cash <= 10 ** 11 else case


def presence(rng, case):
    """Which optional fields to write: all that are not at their absent value, and some of the others."""
    return (case.ufr != 4_200 or rng.random() < 0.5, bool(case.bonds),
            any(case.amounts.values()) or rng.random() < 0.5,
            case.shocks["equity_correlation"] != DEFAULT_EQUITY_CORRELATION or rng.random() < 0.5)
