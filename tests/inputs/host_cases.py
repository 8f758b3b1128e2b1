"""Cases as a host hands them in: the smallest ones, the numbers of a case with their limits, faults in each place of the order of checks,
and random cases.

Cases to save, windows and histories are made over them.
"""

from dataclasses import replace

from tests.inputs import examples, limits
from tests.inputs.limits import AGE, AMOUNT, FLOW, HEADS, LEAST_RATE, MOST_RATE, MOST_UFR
from tests.reference.reference import AMOUNTS, DEFAULT_UFR, FIELD_SHOCKS, NO_SHOCKS, SHOCK_LIMITS, SHOCKS, UNITS, Given

NO_AMOUNTS = dict.fromkeys(AMOUNTS, 0)
NO_RATE_BYTES = [3, 0, 1, 5, 8, 256 + 2, (1 << 32) + 4, 1 << 63, (1 << 64) - 1]  # no rate has this many bytes; some pass by their lower bytes

# One day, one flow, nothing that is not left out: 160 bytes, and 280 with four bytes a rate.
SMALL = Given(ufr=DEFAULT_UFR, rates=[0] * 60, pension=[7], bonds=[], amounts=NO_AMOUNTS, shocks=NO_SHOCKS, heads=1,
              pension_age=0, mean_age=0)
SMALL_FOUR = replace(SMALL, rate_bytes=4)


def limits_of_rates(rate_bytes):
    """The least and the largest rate of this many bytes."""
    return LEAST_RATE * UNITS[rate_bytes], MOST_RATE * UNITS[rate_bytes]


def flat(*rates):
    """The rates of one day per rate, that rate at every term."""
    return [rate for day in examples.flat(*rates) for rate in day]


def put(given, field, at, value):
    """The case with one number changed: a list's by its index, amounts and shocks by name, and of another field the number itself."""
    old = getattr(given, field)
    if isinstance(old, list):
        new = list(old)
        new[at] = value
    else:
        new = old | {at: value} if isinstance(old, dict) else value
    return replace(given, **{field: new})


# ---------------------------------------------------------------- numbers and their limits

def places(given):
    """(field, at, least, most) of the numbers of a case that have limits; of a list the first, one in the middle and the last."""
    yield "ufr", None, 0, MOST_UFR
    for field, least, most in (("rates", *limits_of_rates(given.rate_bytes)), ("pension", 0, FLOW), ("bonds", 0, FLOW)):
        count = len(getattr(given, field))
        for at in sorted({0, count // 2, count - 1}) if count else ():
            yield field, at, least, most
    for name in AMOUNTS:
        yield "amounts", name, 0, AMOUNT
    for name in SHOCKS:
        yield "shocks", name, 0, SHOCK_LIMITS[name]
    yield "heads", None, 1, HEADS
    for field in ("pension_age", "mean_age"):
        yield field, None, 0, AGE


def values(field, least, most):
    """A number's limits, the numbers past them, numbers that pass if only their lower bytes are looked at, and the ends of its type."""
    if field == "rates":
        return [least, most, least - 1, most + 1, -(1 << 15) - 1, 1 << 15, -(1 << 16), 1 << 16, (1 << 16) + most, -(1 << 24), (1 << 24) + most,
                -(1 << 31), (1 << 31) - 1]
    near = [least, most, most + 1] if least == 0 else [least, most, least - 1, most + 1]
    return near + [1 << 16, (1 << 16) + least, 1 << 32, (1 << 32) + most, 1 << 63, (1 << 64) - 1]


def around_six(n, rate_bytes):
    """Growths of n days at the limits of refusal 6, and one past them."""
    least, most = -2_000 * n * UNITS[rate_bytes], 12_000 * n * UNITS[rate_bytes]
    return least, least - 1, most, most + 1


def steep(n, term, forward, rate_bytes=2):
    """n days with that growth at the term: what refusal 6 holds against -2,000 x n and 12,000 x n, or 100 times that."""
    return replace(SMALL, rates=[rate for day in limits.steep_days(n, term, forward) for rate in day], rate_bytes=rate_bytes)


# ---------------------------------------------------------------- the order of checks

def changing(field, change):
    """A fault that changes one field."""
    return lambda given: replace(given, **{field: change(getattr(given, field))})


def putting(field, at, value):
    return lambda given: put(given, field, at, value)


def filled_up(count):
    return lambda flows: (flows + [0] * count)[:count]


def repeated(rates):
    """The same rates at every day."""
    return changing("rates", lambda old: rates * (len(old) // 60))


def faults_of_days(rate_bytes):
    """4 and 5, and 6, of rates of this many bytes."""
    least, most = limits_of_rates(rate_bytes)
    units = UNITS[rate_bytes]
    four = [changing("rates", change) for change in (
        lambda rates: rates + [0], lambda rates: rates[:-1], lambda rates: (rates * 71)[:60 * 71], lambda rates: [])]
    five = [changing("rates", lambda rates: [most + 1] * len(rates)), putting("rates", 0, least - 1), putting("rates", -1, most + 1),
            putting("rates", 30, -(1 << 31))]
    six = [repeated([0, *[6_000 * units + 1] * 59]), repeated([1, *[-1_000 * units] * 59])]
    return [("4", four), ("5", five)], ("6", six)


OF_OTHER_FIELDS = [  # the faults between the UFR and the people
    ("7 of the pensions", [changing("pension", filled_up(count)) for count in (121, 300, 0)]),
    ("8 of the pensions", [putting("pension", 0, FLOW + 1), putting("pension", -1, (1 << 64) - 1)]),
    ("7 of the bonds", [changing("bonds", filled_up(count)) for count in (61, 300)]),
    ("8 of the bonds", [changing("bonds", change) for change in (
        lambda bonds: [FLOW + 1, *bonds[1:]], lambda bonds: [*bonds[:-1], 1 << 32])]),
    ("10", [putting("amounts", name, AMOUNT + 1) for name in AMOUNTS]),
    ("11", [putting("shocks", name, SHOCK_LIMITS[name] + 1) for name in FIELD_SHOCKS]),
    ("12", [putting("heads", None, 0), putting("heads", None, HEADS + 1), putting("pension_age", None, AGE + 1),
            putting("mean_age", None, AGE + 1)]),
]


OF_EQUITY = ("11 of the equity correlation", [putting("shocks", "equity_correlation", value) for value in (1_001, 1 << 16, (1 << 64) - 1)])


def faults(rate_bytes):
    """(refusal, the ways to be refused with it), in the order of checks of a case with this many bytes a rate: the days stand behind the UFR,
    or behind the people; the equity correlation stands behind them all."""
    days, six = faults_of_days(rate_bytes)
    first = [("3", [putting("rate_bytes", None, value) for value in NO_RATE_BYTES]),
             ("9", [putting("ufr", None, MOST_UFR + 1), putting("ufr", None, (1 << 64) - 1)])]
    fields = [*days, *OF_OTHER_FIELDS] if rate_bytes == 2 else [*OF_OTHER_FIELDS, *days]
    return [*first, *fields, OF_EQUITY, six]


FAULTS, FOUR_BYTE_FAULTS = faults(2), faults(4)


def faults_of(given):
    return FAULTS if given.rate_bytes == 2 else FOUR_BYTE_FAULTS


# ---------------------------------------------------------------- random cases

def random_case(rng, pool, rate_bytes=2):
    """A case within all limits, with any number of days, which are those of a pool, and flows; each optional field is often at its absent
    value."""
    one = lambda low, high: rng.choice([low, high, rng.randint(low, high)])
    flows = lambda count: [one(0, FLOW) for _ in range(count)]
    return Given(ufr=rng.choice([DEFAULT_UFR, one(0, MOST_UFR)]),
                 rates=[rate for _ in range(rng.randint(1, 70)) for rate in rng.choice(pool)],
                 pension=flows(rng.randint(1, 120)), bonds=flows(rng.choice([0, rng.randint(1, 60)])),
                 amounts=rng.choice([NO_AMOUNTS, {name: one(0, AMOUNT) for name in AMOUNTS}]),
                 shocks=examples.random_shocks(rng, one),
                 heads=one(1, HEADS), pension_age=one(0, AGE), mean_age=one(0, AGE), rate_bytes=rate_bytes)
