"""Histories of months, as a host hands them in, and case files to value with them: sums at every border of rounding, a month at or past a
limit in every place of the ring, histories of other lengths, start indices of any size, and faults in each place of the order of checks.

tests/compare/months.py puts them to the engine. tests/writers writes the rows (what, history, ..), which are small, down as computed
statements about the definitions.
"""

from collections import defaultdict
from dataclasses import replace
from itertools import cycle
from typing import NamedTuple

from tests.inputs import examples, files, host_cases, limits, spoiling
from tests.inputs.limits import put
from tests.reference import reference
from tests.reference.months import HISTORY, LEAST_MONTH, MONTHS, MOST_MONTH, MOST_UFR, months_of
from tests.reference.reference import DEFAULT_UFR, UNITS, encode, refusal

LARGEST = (1 << 64) - 1
LEAST_SUM, MOST_SUM = MONTHS * LEAST_MONTH, MONTHS * MOST_MONTH


def history_of(months):
    return b"".join(month.to_bytes(2, "big", signed=True) for month in months)


def with_month(history, place, month):
    """The history with another month at one place."""
    return history_of(put(months_of(history), place, month))


# ---------------------------------------------------------------- sums

def with_sum(rng, total, moves=0):
    """A history with this sum, all months within their limits where that can be: as even as it can be, then moves from one month
    to another, some of them as far as a limit."""
    least, more = divmod(total, MONTHS)
    months = [least + 1] * more + [least] * (MONTHS - more)
    rng.shuffle(months)
    for _ in range(moves):
        giver, taker = rng.sample(range(MONTHS), 2)
        most = max(0, min(months[giver] - LEAST_MONTH, MOST_MONTH - months[taker]))
        steps = rng.choice([most, rng.randint(0, most)])
        months[giver] -= steps
        months[taker] += steps
    return history_of(months)


def border_sums():
    """Where the mean is half a hundred above a whole hundred, which is q hundreds when rounded, and one less. Months within their limits
    reach neither the first q nor the last."""
    return [12_000 * q - 6_000 - less for q in range(-10, 102) for less in (0, 1)]


def border_histories(rng):
    """Each in three forms: even months, months of any size, and most of them at a limit."""
    return [with_sum(rng, total, moves) for total in border_sums() for moves in (0, 40, 400)]


def found_sum(rng):
    """A sum whose UFR is within its limits."""
    return rng.randint(-6_000, MONTHS * MOST_UFR + 5_999)


def random_history(rng):
    """Mostly one of which a UFR is found; else one with any sum, or any bytes."""
    moves = rng.choice([0, 10, 200])
    return rng.choice([with_sum(rng, found_sum(rng), moves), with_sum(rng, found_sum(rng), moves),
                       with_sum(rng, rng.randint(LEAST_SUM, MOST_SUM), moves), rng.randbytes(HISTORY)])


# ---------------------------------------------------------------- single months, lengths and start indices

# At the limits, past them, at the ends of two bytes, and numbers that pass with their bytes exchanged or their lower byte alone.
TRIED_MONTHS = [LEAST_MONTH, LEAST_MONTH - 1, MOST_MONTH, MOST_MONTH + 1, -(1 << 15), (1 << 15) - 1, 0x7F00, -0x7F00]


def one_month(rng):
    """One month at or past a limit, in every place of the ring."""
    return [with_month(with_sum(rng, found_sum(rng), 40), place, month) for place in range(MONTHS) for month in TRIED_MONTHS]


LENGTHS = [0, 1, 2, 119, 120, 121, 238, 239, HISTORY, 241, 242, 255, 256, 360, 480, HISTORY + 256, HISTORY + (1 << 16)]


def other_lengths(rng):
    """Histories cut and lengthened: with good months, and with months past their limits."""
    good, bad = with_sum(rng, found_sum(rng), 40), rng.randbytes(HISTORY)
    return [(one * (length // HISTORY + 1))[:length] for one in (good, bad) for length in LENGTHS]


# In range and out of it, another turn of the ring, and numbers whose lower bytes are in range.
STARTS = [*range(MONTHS + 2), 2 * MONTHS - 1, 2 * MONTHS, LARGEST,
          *((1 << bits) + more for bits in (7, 8, 16, 31, 32, 63) for more in (-1, 0, 5))]


def any_start(rng):
    """In range mostly, so that what is checked later is met."""
    return rng.choice(STARTS) if rng.random() < 0.1 else rng.randrange(MONTHS)


# ---------------------------------------------------------------- valuations

class Call(NamedTuple):
    """What a valuation is asked."""
    file: bytes
    history: bytes
    start: int
    lengths: tuple  # of the lent buffers, for factors and for rates


def both_ufrs(case):
    """The file with the case's own UFR, and the one without the field; amounts of 0 are there in the first alone."""
    return [encode(case, True, bool(case.bonds), True),
            encode(replace(case, ufr=DEFAULT_UFR), False, bool(case.bonds), any(case.amounts.values()))]


def accepted_files(rng, count):
    """Both files of this many cases, whose days have two bytes and four in turn, all with 120 pension flows: what is past term 20 has the UFR
    in it."""
    flows = lambda: [rng.randint(1, limits.FLOW) for _ in range(120)]
    cases = [replace(examples.random_case(rng, rate_bytes=rate_bytes), pension=flows())
             for _, rate_bytes in zip(range(count), cycle(UNITS))]
    return [file for case in cases for file in both_ufrs(case)]


def every_ufr(rng, accepted):
    """Each UFR that can be found, for each of these files."""
    return [Call(file, with_sum(rng, MONTHS * ufr + rng.choice([-6_000, 0, 5_999]), 40), rng.randrange(MONTHS), (240, 241))
            for file in accepted for ufr in range(0, MOST_UFR + 1, 100)]


def refused_files():
    """The files at each limit and in the order of checks that are refused, by their number; those with four-byte days come last."""
    found = defaultdict(list)
    for data in limits.all_files():
        found[refusal(data)].append(data)
    return {number: found[number] for number in sorted(found) if number}


def damaged_calls(rng, count):
    """Damaged files with any history."""
    damaged = [data for rate_bytes in UNITS for data in files.damaged_once(files.all_fields(1, rate_bytes))]
    return [Call(rng.choice(damaged), random_history(rng), any_start(rng), (240, 240)) for _ in range(count)]


# ---------------------------------------------------------------- the order of checks

def with_file(file):
    return lambda call: call._replace(file=file)


def on_history(change):
    return lambda call: call._replace(history=change(call.history))


def from_start(start):
    return lambda call: call._replace(start=start)


def lent(*lengths):
    return lambda call: call._replace(lengths=lengths)


def month_at(place, month):
    return on_history(lambda history: with_month(history, place, month))


def all_months(month):
    return on_history(lambda history: history_of([month] * MONTHS))


OWN = "a number of the file's own"
FAULTS = [  # (refusal, the ways to be refused with it), in the order of checks
    ("13", [lent(239, 240), lent(240, 239), lent(0, 240), lent(240, 0), lent(0, 0)]),
    (OWN, [with_file(file) for numbered in refused_files().values() for file in (numbered[0], numbered[-1])]),
    ("17", [on_history(lambda history: history[:-1]), from_start(MONTHS), on_history(lambda history: history + b"\0"),
            on_history(lambda history: b""), from_start(1 << 32), from_start(LARGEST)]),
    ("18", [month_at(0, LEAST_MONTH - 1), month_at(MONTHS - 1, MOST_MONTH + 1), month_at(60, -(1 << 15)), all_months(MOST_MONTH + 1)]),
    ("19", [all_months(-51), all_months(MOST_UFR + 50), all_months(LEAST_MONTH), all_months(MOST_MONTH)]),
]


def bases():
    """Valuations that are accepted: a small file without a UFR, and one in which every field stands; and one of each with four-byte days."""
    history = history_of([3_100] * MONTHS)
    return [call for rate_bytes in UNITS for call in (
        Call(files.fewest_fields(rate_bytes), history, 0, (240, 240)), Call(files.all_fields(3, rate_bytes), history, MONTHS - 1, (241, 300)))]


def one_fault(call):
    """Each fault alone."""
    return [fault(call) for _, ways in FAULTS for fault in ways]


def two_faults(call):
    return spoiling.two_faults(call, FAULTS)


def several_faults(rng, call):
    """Faults that three or more checks find."""
    chosen = sorted(rng.sample(range(len(FAULTS)), rng.randint(3, len(FAULTS))))
    return spoiling.spoiled(call, [rng.choice(FAULTS[at][1]) for at in chosen])


# ---------------------------------------------------------------- rows

FOUND = history_of([3_100] * MONTHS)
BELOW, ABOVE = LEAST_MONTH - 1, MOST_MONTH + 1
NO_UFR = history_of([-51] * MONTHS)  # refused by 19

# Both sides of halves below 0, around 0 and above, of the least and of the largest UFR, and the ends.
SUMS = [LEAST_SUM, -18_001, -18_000, -17_999, -12_000, -6_001, -6_000, -5_999, -1, 0, 5_999, 6_000, 12_000, 17_999, 18_000,
        593_999, 594_000, 605_999, 606_000, MOST_SUM]

# Months of several bytes, none like its neighbours: the ring shows from where it is read.
RING = history_of([-500, 255, 256, *[7] * 115, LEAST_MONTH, MOST_MONTH])
ODD_BYTES = history_of([-(1 << 15), -1, 0, (1 << 15) - 1, *[BELOW] * 115, ABOVE])


def ufr_rows():
    """A history and a start: each limit on both sides, and faults of every two checks."""
    yield "no byte", b"", 0
    yield "239 bytes", FOUND[:-1], 0
    yield "241 bytes", FOUND + b"\0", 0
    yield f"start {MONTHS}", FOUND, MONTHS
    yield "17 before 18", with_month(FOUND, 0, ABOVE), MONTHS
    yield "17 before 19", NO_UFR, MONTHS
    yield f"both limits, start {MONTHS - 1}", with_month(with_month(FOUND, 0, LEAST_MONTH), MONTHS - 1, MOST_MONTH), MONTHS - 1
    for place, which in ((0, "first"), (MONTHS - 1, "last")):
        for month in (BELOW, ABOVE):
            yield f"the {which} month: {month}", with_month(FOUND, place, month), 0
    yield "18 before 19", with_month(NO_UFR, 60, BELOW), 0
    yield "a mean of -50", history_of([-50] * MONTHS), 0
    yield "a 120th less", with_month(history_of([-50] * MONTHS), MONTHS - 1, -51), 0
    yield "a mean of 5,050 less a 120th", with_month(history_of([5_050] * MONTHS), 0, 5_049), 0
    yield "a mean of 5,050", history_of([5_050] * MONTHS), 0


QUICK = ["239 bytes", "241 bytes", f"start {MONTHS}", f"the last month: {ABOVE}", "18 before 19", "a 120th less"]


def quick_ufr_rows():
    """Those that must-fail edits of the definitions need, and few others."""
    return [row for row in ufr_rows() if row[0] in QUICK]


# A fund whose one pension flow, at term 21, is the first that the UFR has a part in: with the default UFR, with which it is free, and with
# another of its own. With a UFR of 3,100 it falls short, and both name the same file.
PAST_20 = examples.c1(pension=[0] * 20 + [1_000_000], amounts=examples.c1().amounts | {"cash": 1_096_500})
PLAIN, OWN_UFR = encode(PAST_20, False, False, True), encode(replace(PAST_20, ufr=1_000), True, False, True)
SMALL = reference.shortest(host_cases.SMALL)
STEEP = reference.shortest(host_cases.steep(1, 2, 12_001))  # refused by 6


def quick_value_rows():
    """Valuations whose refusal takes few steps to compute: 13, and numbers from the front of the file."""
    call = Call(b"", FOUND[:-1], 0, (240, 240))
    yield "13 before 1, for the factors", call._replace(lengths=(239, 240))
    yield "13 before 1, for the rates", call._replace(lengths=(240, 239))
    yield "1 before 17", call
    yield "3 before 17", call._replace(file=bytes(2))
    yield "9 before 17", call._replace(file=limits.bits(limits.UFR) + limits.number(MOST_UFR + 1, 2))


def four_value_rows():
    """Files with four-byte days: their last field before the history, and none."""
    call = Call(limits.TO_DAYS + limits.four(limits.FLAT), FOUND, MONTHS - 1, (240, 240))
    high, steep = limits.put(limits.FLAT, 0, limits.MOST + 1), limits.steep_days(1, 2, 1_200_001)[0]
    yield "5 before 17", call._replace(file=limits.TO_DAYS + limits.four(high), start=MONTHS)
    yield "6 before 17", call._replace(file=limits.TO_DAYS + limits.four(steep), start=MONTHS)
    yield "17", call._replace(start=MONTHS)
    yield "none", call


def value_rows():
    """Valuations with faults of checks that follow each other, from the end of the file on; and none."""
    call = Call(SMALL, FOUND, MONTHS - 1, (240, 240))
    yield "13 before 17", call._replace(start=MONTHS, lengths=(239, 240))
    yield "2 before 17", call._replace(file=SMALL + b"\0", history=FOUND[:-1])
    yield "6 before 17", call._replace(file=STEEP, start=MONTHS)
    yield "6 before 18", call._replace(file=STEEP, history=with_month(FOUND, 0, BELOW))
    yield "6 before 19", call._replace(file=STEEP, history=NO_UFR)
    yield "17 before 18", call._replace(history=with_month(FOUND, 0, BELOW), start=MONTHS)
    yield "18 before 19", call._replace(history=with_month(NO_UFR, MONTHS - 1, ABOVE))
    yield "19, from another start", call._replace(history=NO_UFR, start=60)
    yield "none", call
