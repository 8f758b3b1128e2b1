"""Case files for the comparisons: random, damaged, at the ends of the limits, near the borders, with wide brackets."""

import struct
from dataclasses import replace
from itertools import combinations

from tests.inputs import examples, limits
from tests.reference import reference
from tests.reference.reference import (AMOUNTS, DAYS_BITS, EQUITY_BIT, FIELD_SHOCKS, LOWER, SHOCK_LIMITS, SHOCKS, UNITS, UPPER, Case,
                                       Rounded, encode)

LONGEST = {2: 9_225, 4: 17_625}  # bytes of the longest file, by the bytes of a rate


def file_of(rng, case):
    return encode(case, *examples.presence(rng, case))


def random_files(rng, count, rate_bytes=2):
    return [file_of(rng, examples.random_case(rng, rate_bytes=rate_bytes)) for _ in range(count)]


# ---------------------------------------------------------------- four-byte days

def rewritten(data):
    """A file with bit 1, "rewritten to bit 7 with every rate times 100": the same other fields, and the days behind them, but ahead of the
    equity correlation. Its days field must be complete, and so must an equity correlation."""
    bits, count_at = int.from_bytes(data[:2], "big"), 4 if data[1] & 1 else 2
    rates_end = count_at + 1 + 120 * data[count_at]
    equity = len(data) - (2 if bits & EQUITY_BIT else 0)
    rates = struct.unpack(f">{60 * data[count_at]}h", data[count_at + 1:rates_end])
    days = data[count_at:count_at + 1] + struct.pack(f">{len(rates)}i", *(100 * rate for rate in rates))
    return (bits ^ 0x82).to_bytes(2, "big") + data[2:count_at] + data[rates_end:equity] + days + data[equity:]


def rewritten_case(case):
    """The case of the rewritten file."""
    return replace(case, days=[[100 * rate for rate in day] for day in case.days], rate_bytes=4)


def finer_case(case):
    """The rewritten case with all seven decimals in use: neighbours end in other digits, and each rate is within half a step of the old."""
    digits = lambda day, term: (37 * day + 13 * term) % 99 - 49
    days = [[100 * rate + digits(at, term) for term, rate in enumerate(day, 1)] for at, day in enumerate(case.days, 1)]
    return replace(case, days=days, rate_bytes=4)


def in_form(case, rate_bytes):
    """A case of two-byte days as it is, or finer."""
    return case if rate_bytes == 2 else finer_case(case)


# ---------------------------------------------------------------- damage

def fewest_fields(rate_bytes=2):
    """The shortest acceptable file, of 160 bytes, or with four-byte days 280."""
    return encode(examples.c1(amounts=dict.fromkeys(AMOUNTS, 0), rate_bytes=rate_bytes), False, False, False, False)


def all_fields(days=1, rate_bytes=2):
    """A file in which every field stands, and every number is another."""
    return encode(in_form(replace(examples.apart(), days=examples.apart().days[:days]), rate_bytes), True, True, True, True)


def rate_bytes_of(data):
    """By the map of a file with either days field."""
    return 2 if data[1] & DAYS_BITS[2] else 4


def places(data):
    """Where the fields of a file begin in which all stand: n, rates, m, pension, k, bonds, amounts, shocks, people."""
    two_bytes = rate_bytes_of(data) == 2
    m_at = 5 + 120 * data[4] if two_bytes else 4
    k_at = m_at + 1 + 4 * data[m_at]
    amounts_at = k_at + 1 + 4 * data[k_at]
    n_at = 4 if two_bytes else amounts_at + 96
    return n_at, n_at + 1, m_at, m_at + 1, k_at, k_at + 1, amounts_at, amounts_at + 64, amounts_at + 88


def equity_at(data):
    """Where the equity correlation stands in such a file: behind the people, or behind four-byte days."""
    return places(data)[-1] + 8 if rate_bytes_of(data) == 2 else field_of_days(data)[1]


def map_patches(bits):
    """A map in which all fields stand, with the days field of this map: a bit missing, a bit too many, both or neither of bits 1 and 7, the
    other of them, no equity correlation, and no optional field."""
    days, other = (DAYS_BITS[2], DAYS_BITS[4]) if bits & DAYS_BITS[2] else (DAYS_BITS[4], DAYS_BITS[2])
    missing = [bits ^ bit for bit in (days, 1 << 2, 1 << 5, 1 << 6)]
    standing = [bits | bit for bit in (other, *(1 << bit for bit in range(9, 16)))]
    return [*missing, *standing, bits ^ EQUITY_BIT, bits ^ EQUITY_BIT ^ 0x19, bits ^ days ^ other]


def days_patches(data):
    """Changes of the days field: its count, single rates past their limits, and growths at and past those of refusal 6."""
    n_at, rates, width = *places(data)[:2], rate_bytes_of(data)
    units, last = UNITS[width], rates + width * (60 * data[n_at] - 1)
    number = lambda rate: (rate % (1 << 8 * width)).to_bytes(width, "big")
    changed = [(n_at, bytes([n])) for n in (0, 2, 70, 71, 255)]
    ends = (1 << 8 * width - 1) - 1, -(1 << 8 * width - 1)
    changed += [(at, number(rate)) for at in (rates, rates + 29 * width, last) for rate in (-1_000 * units - 1, 10_000 * units + 1, *ends)]
    return changed + [(rates, number(0) + number(rate) * 59) for rate in (6_000 * units, 6_000 * units + 1)]


def patches(data):
    """Changes (offset, bytes) of a file in which all fields stand; nearly every one breaks one rule of the case file."""
    _, _, m_at, pension, k_at, bonds, amounts, shocks, people = places(data)
    number = lambda value, length: value.to_bytes(length, "big")
    changed = [(0, number(bits, 2)) for bits in map_patches(int.from_bytes(data[:2], "big"))]
    changed += [(2, number(ufr, 2)) for ufr in (5_000, 5_001, 0xFFFF)]
    changed += days_patches(data)
    changed += [(m_at, number(m, 1)) for m in (0, 120, 121, 255)]
    changed += [(k_at, number(k, 1)) for k in (0, 60, 61, 255)]
    changed += [(at, number(flow, 4)) for at in (pension, k_at - 4, bonds, amounts - 4)
                for flow in (100_000_000, 100_000_001, 0xFFFFFFFF)]
    changed += [(amounts + 8 * i, number(amount, 8)) for i in range(8)
                for amount in (10 ** 11, 10 ** 11 + 1, 1 << 63, (1 << 64) - 1)]
    changed += [(shocks + 2 * i, number(SHOCK_LIMITS[name] + more, 2)) for i, name in enumerate(FIELD_SHOCKS)
                for more in (0, 1)]
    changed += [(equity_at(data), number(thousandths, 2)) for thousandths in (0, 1, 999, 1_000, 1_001, 0xFFFF)]
    changed += [(people, number(heads, 4)) for heads in (0, 1, 1_000_000, 1_000_001, 0xFFFFFFFF)]
    return changed + [(people + at, number(age, 2)) for at in (4, 6) for age in (1_200, 1_201, 0xFFFF)]


def patched(data, *changes):
    data = bytearray(data)
    for offset, written in changes:
        data[offset:offset + len(written)] = written
    return bytes(data)


def damaged_once(data):
    return [patched(data, patch) for patch in patches(data)]


def damaged_twice(rng, data):
    """Every pair of changes: as it is, cut somewhere, or with bytes behind it."""
    for pair in combinations(patches(data), 2):
        twice = patched(data, *pair)
        yield rng.choice([twice, twice[:rng.randrange(len(twice))], twice + rng.randbytes(rng.randint(1, 9))])


def truncations(data):
    return [data[:length] for length in range(len(data))]


def field_of_days(data):
    """Where the days field of a file begins in which all fields stand, and where it ends."""
    n_at, rates, *_ = places(data)
    return n_at, rates + 60 * rate_bytes_of(data) * data[n_at]


def other_bytes(data, values, first=0, end=None):
    """Each byte of the file, or of a part of it, replaced by each other value."""
    return [patched(data, (at, bytes([value]))) for at in range(first, len(data) if end is None else end)
            for value in values if value != data[at]]


def long_files(rng):
    """Files of up to 100,000 bytes, refused for their first fault and not for their length."""
    for rate_bytes, longest in LONGEST.items():
        full = encode(full_case(rng, rate_bytes), True, True, True, True)
        assert len(full) == longest
        mean_age = places(full)[-1] + 6
        for length in (1, 2, 777, 100_000 - longest):
            for data in (full, full[:-1], patched(full, (2, b"\xff\xff")), patched(full, (mean_age, b"\xff\xff"))):
                yield data + bytes(length)
    around = [longest + more for longest in LONGEST.values() for more in (-1, 0, 1)]
    for length in (*around, 20_000, 65_535, 65_536, 99_999, 100_000):
        for start in (b"", b"\x00\x76", b"\x01\x7f\x00\x00\x46", b"\x00\x66\x01", b"\x01\xe4\x01", b"\x01\xfd\x00\x00\x78"):
            yield start + bytes(length - len(start))
            yield start + rng.randbytes(length - len(start))


# ---------------------------------------------------------------- the ends of the limits

def zigzag(period, upwards, units=1):
    """One day whose growths are at the ends of refusal 6: this many terms up, this many down."""
    rates, rate = [], 0
    for t in range(1, 61):
        if upwards == ((t - 1) // period % 2 == 0):
            rate = min(10_000 * units, (12_000 * units + (t - 1) * rate) // t)
        else:
            rate = max(-1_000 * units, -((2_000 * units - (t - 1) * rate) // t))
        rates.append(rate)
    return rates


def extreme_days(units=1):
    return [[-1_000 * units] * 60, [10_000 * units] * 60, [0] * 60] + [
        zigzag(period, upwards, units) for period in (1, 2, 5, 20, 30, 60) for upwards in (True, False)]


EXTREME_DAYS = extreme_days()


def day_pool(rng, count, units=1):
    """Days of which each passes refusal 6 by itself, so that any of them pass it together."""
    days = [examples.random_days(rng, 1, units) for _ in range(count)] + [[day] for day in extreme_days(units)]
    return [day for [day] in days if reference.growths_within_limits([day], units)]


def extreme_case(rng, days=None, rate_bytes=2):
    """Every field at one of its ends."""
    end = lambda most, least=0: rng.choice([least, most])
    day = rng.choice(extreme_days(UNITS[rate_bytes]))
    flow = end(100_000_000)
    return Case(ufr=end(5_000), days=[day] * (days or rng.choice([1, 1, 1, 2])),
                pension=[flow] * end(120, 1), bonds=[end(100_000_000)] * rng.choice([0, 1, 60]),
                amounts={name: end(10 ** 11) for name in AMOUNTS},
                shocks={name: end(SHOCK_LIMITS[name]) for name in SHOCKS},
                heads=end(1_000_000, 1), pension_age=end(1_200), mean_age=end(1_200), rate_bytes=rate_bytes)


def full_case(rng, rate_bytes=2):
    """70 days, 120 pension flows and 60 bond flows, and equity classes that do not fall together."""
    flows = lambda count: [rng.randint(1, 100_000_000) for _ in range(count)]
    case = examples.random_case(rng, days=70, rate_bytes=rate_bytes)
    return replace(case, pension=flows(120), bonds=flows(60),
                   shocks=case.shocks | {"equity_correlation": rng.choice([0, 999, rng.randint(0, 999)])})


def ends(rate_bytes=2):
    """All fields at their lower ends, and all at their upper ones."""
    units = UNITS[rate_bytes]
    least = Case(ufr=0, days=examples.flat(-1_000 * units), pension=[0], bonds=[], amounts=dict.fromkeys(AMOUNTS, 0),
                 shocks=dict.fromkeys(SHOCKS, 0), heads=1, pension_age=0, mean_age=0, rate_bytes=rate_bytes)
    most = Case(ufr=5_000, days=examples.flat(10_000 * units) * 70, pension=[100_000_000] * 120, bonds=[100_000_000] * 60,
                amounts=dict.fromkeys(AMOUNTS, 10 ** 11), shocks=dict(SHOCK_LIMITS), heads=1_000_000,
                pension_age=1_200, mean_age=1_200, rate_bytes=rate_bytes)
    return least, most


def largest_products(rate_bytes=2):
    """The lowest rates with the largest down shift and the highest with the largest up shift, of one day and of 70, all flows as large as
    can be: no factor, no growth and no P(t) of a file is larger."""
    units = UNITS[rate_bytes]
    return [examples.c1(ufr=ufr, days=examples.flat(rate * units) * n, pension=[100_000_000] * 120, bonds=[100_000_000] * 60,
                        shocks=dict(SHOCK_LIMITS), rate_bytes=rate_bytes)
            for rate in (-1_000, 10_000) for n in (1, 70) for ufr in (0, 5_000)]


def at_forwards(rng, rate_bytes=2):
    """Days whose growth at some term is at a limit of refusal 6, which it passes, of one day to 70."""
    units, made = UNITS[rate_bytes], []
    for n in (1, 2, 3, 70):
        for term in (2, 3, 20, 21, 22, 59, 60):
            for limit in (-2_000, 12_000):
                days = limits.steep_days(n, term, limit * units * n)
                made.append(replace(extreme_case(rng, 1, rate_bytes), days=days))
    return [case for case in made if all(reference.rates_within_limits(day, units) for day in case.days)]


# ---------------------------------------------------------------- near the borders

def on_steps(rng, rate_bytes=2):
    """Flat curves, whose zero rates are whole steps: there the tests of the two ends part. Halving tests 9,000 first, then 3,500,
    then 750 or 6,250; 4,200 is the UFR, so that no term leaves the step. With four bytes, those a unit beside a step too."""
    rates = [9_000, 3_500, 750, 6_250, 4_200] + [rng.randint(-1_000, 10_000) for _ in range(5)]
    units = UNITS[rate_bytes]
    beside = (0,) if units == 1 else (0, 1, -1)
    return [examples.c1(days=examples.flat(rate * units + more), rate_bytes=rate_bytes) for rate in rates for more in beside]


def at_borders(case):
    """The case with the cash amounts on both sides of each change of the rounded verdict."""
    poor = replace(case, amounts=case.amounts | {"cash": 0})
    rounded = Rounded(poor)
    A, L, S = rounded.A, rounded.L, rounded.S
    ceiling = lambda a, b: -(-a // b)
    changes = {ceiling(21 * L[LOWER] - 20 * A[UPPER], 2_000), ceiling(21 * L[UPPER] - 20 * A[LOWER], 2_000),
               ceiling(L[LOWER] + S[LOWER] - A[UPPER], 100), ceiling(L[UPPER] + S[UPPER] - A[LOWER], 100)}
    return [replace(case, amounts=case.amounts | {"cash": cash})
            for change in sorted(changes) for cash in (change - 1, change) if 0 <= cash <= 10 ** 11]


def border_cases(rng, count, rate_bytes=2):
    """Cases of random funds that hold little, at their borders."""
    cases = []
    while len(cases) < count:
        case = examples.random_case(rng, rate_bytes=rate_bytes)
        cases += at_borders(replace(case, amounts={name: amount // 1_000 for name, amount in case.amounts.items()}))
    return cases[:count]


# ---------------------------------------------------------------- wide brackets

def width(bracket):
    return bracket[UPPER] - bracket[LOWER]


WIDTHS = {  # each in parts of the width that is allowed
    "factor": lambda r: max(width(r.factors[t]) / (4 * t * t) for t in range(21, 121)),
    "L": lambda r: width(r.L) / r.WL,
    "B": lambda r: max(map(width, r.Bs.values())) / max(r.WB, 1),  # on the widest of the three curves
    "S": lambda r: width(r.S) / (3 * r.WL + 2 * r.WB + 8),
}


def moved(rng, days, units):
    """The days with the rates of some terms in a row moved, where refusals 5 and 6 allow it."""
    first, last = sorted(rng.sample(range(61), 2))
    move = rng.choice([-1, 1]) * 10 ** rng.randint(0, 3 if units == 1 else 5)
    within = lambda rate: min(max(rate, -1_000 * units), 10_000 * units)
    tried = [day[:first] + [within(rate + move) for rate in day[first:last]] + day[last:] for day in days]
    return tried if reference.growths_within_limits(tried, units) else days


def changed(rng, case):
    """The case with some of its rates moved, or one of its fields drawn anew."""
    if rng.random() < 0.5:
        return replace(case, days=moved(rng, case.days, UNITS[case.rate_bytes]))
    other = rng.choice([examples.random_case, extreme_case])(rng, days=len(case.days), rate_bytes=case.rate_bytes)
    name = rng.choice(["ufr", "days", "pension", "bonds", "shocks", "heads"])
    return replace(case, **{name: getattr(other, name)})


def climbed(rng, aim, steps, rate_bytes=2):
    """The cases on a climb towards a wide bracket."""
    case = extreme_case(rng, rate_bytes=rate_bytes)
    best, path = WIDTHS[aim](Rounded(case)), [case]
    for _ in range(steps):
        tried = changed(rng, case)
        found = WIDTHS[aim](Rounded(tried))
        if found > best:
            case, best = tried, found
            path.append(case)
    return path
