"""Windows of days, as a host hands them in: right ones with anything in their free slots, damaged and merely odd ones, lists of changes,
and valuations with faults in each place of the order of checks.

tests/compare/rolling.py puts them to the engine. tests/writers writes the rows (what, window, ..), which are small, down as computed
statements about the definitions.
"""

from array import array
from dataclasses import replace
from itertools import cycle, product
from typing import NamedTuple

from tests.inputs import examples, files, host_cases, limits, spoiling
from tests.inputs.limits import LEAST_RATE, MOST_RATE, put
from tests.reference import reference
from tests.reference.reference import UNITS, Given, rates_within_limits
from tests.reference.rolling import EMPTY, MOST_DAYS, RATES, TERMS, Window, days_held, placed

LARGEST = (1 << 64) - 1
SIXTEEN_BITS = -(1 << 15), (1 << 15) - 1


def any_rates(rng):
    """4,200 numbers of 16 bits."""
    return array("h", rng.randbytes(2 * RATES)).tolist()


def placed_anywhere(rng, days):
    """A right window of these days, with anything in the other slots."""
    return placed(days, rng.randrange(MOST_DAYS), any_rates(rng))


def day_pool(rng, count):
    """Days within the limits of refusal 5; many of them break 6."""
    return files.EXTREME_DAYS + [[rng.randint(LEAST_RATE, MOST_RATE) for _ in range(TERMS)] for _ in range(count)]


def random_window(rng, pool):
    return placed_anywhere(rng, rng.choices(pool, k=rng.choice([0, 1, 69, 70, rng.randint(2, 68)])))


# ---------------------------------------------------------------- changes

# At the limits, past them, and rates that pass if only their lower bytes are looked at.
TRIED_RATES = [*host_cases.values("rates", LEAST_RATE, MOST_RATE), 70_000, -40_000]


def some_term(rng):
    return rng.choice([0, TERMS - 1, rng.randrange(TERMS)])


def new_day(rng, pool):
    """A day to add; one in five has a rate at or past a limit."""
    day = rng.choice(pool)
    return put(day, some_term(rng), rng.choice(TRIED_RATES)) if rng.random() < 0.2 else day


def changes(rng, pool, count):
    """Days to add, and None where one is dropped: long runs of mostly the one or the other, to run over 70 days and below none."""
    out = []
    while len(out) < count:
        share = rng.choice([0.05, 0.5, 0.9, 0.98, 1])
        out += [new_day(rng, pool) if rng.random() < share else None for _ in range(rng.randint(5, 120))]
    return out[:count]


# ---------------------------------------------------------------- damage

def other_numbers(number):
    """For a count or a start: next to it and to the limits, another turn of the ring, the same lower bytes, and the largest."""
    near = [number + 1, max(number - 1, 0), 0, 1, MOST_DAYS - 1, MOST_DAYS, MOST_DAYS + 1, number + MOST_DAYS]
    return near + [number + (1 << bits) for bits in (8, 16, 32, 63)] + [1 << 63, LARGEST]


def other_count(rng, window):
    return window._replace(count=rng.choice(other_numbers(window.count)))


def other_start(rng, window):
    return window._replace(start=rng.choice(other_numbers(window.start)))


def other_sum(rng, window):
    term = some_term(rng)
    total = window.sums[term]
    others = [total + more for bits in (0, 1, 8, 16, 32) for more in (1 << bits, -(1 << bits))]
    return window._replace(sums=put(window.sums, term, rng.choice([*others, 0, -total, -(1 << 63), (1 << 63) - 1])))


def slots(window):
    """Those that are held, oldest day first, and then the free ones."""
    return [at % MOST_DAYS for at in range(window.start, window.start + MOST_DAYS)]


def other_rate(rng, window, among, mended=False):
    """One rate in one of these slots is another; its sum is mended, or is not."""
    if not among:
        return window
    slot, term = rng.choice([among[0], among[-1], rng.choice(among)]), some_term(rng)
    at = TERMS * slot + term
    old, least, most = window.rates[at], *SIXTEEN_BITS
    rate = rng.choice([max(old - 1, least), min(old + 1, most), LEAST_RATE, LEAST_RATE - 1, MOST_RATE, MOST_RATE + 1, least, most])
    total = window.sums[term] + (rate - old if mended else 0)
    return window._replace(rates=put(window.rates, at, rate), sums=put(window.sums, term, total))


def held_rate(rng, window):
    return other_rate(rng, window, slots(window)[:window.count])


def held_rate_and_sum(rng, window):
    return other_rate(rng, window, slots(window)[:window.count], mended=True)


def free_rate(rng, window):
    return other_rate(rng, window, slots(window)[window.count:])


DAMAGE = [held_rate, held_rate_and_sum, free_rate, other_sum, other_count, other_start]  # what moves the slots held comes last


def odd_window(rng, pool):
    """A right window with one thing changed in it, or several; it may still be right."""
    window = random_window(rng, pool)
    for at in sorted(rng.sample(range(len(DAMAGE)), rng.choice([1, 1, 1, 2, 3, 4]))):
        window = DAMAGE[at](rng, window)
    return window


# ---------------------------------------------------------------- valuations

class Call(NamedTuple):
    """What a valuation is asked."""
    window: Window
    given: Given
    lengths: tuple  # of the lent buffers, for factors and for rates


def right_calls(rng, count):
    """Windows of 1 to 70 days at every start, each with a case that has days of its own, in two bytes and in four in turn. Any days of a pool
    pass 6 together."""
    pools = {rate_bytes: files.day_pool(rng, 200, units) for rate_bytes, units in UNITS.items()}
    turns = rng.sample(range(MOST_DAYS), MOST_DAYS)
    places = [(start, 1 + (start + turn) % MOST_DAYS) for turn in turns for start in range(MOST_DAYS)]
    for (start, days), rate_bytes in zip(places[:count], cycle(pools)):
        window = placed(rng.choices(pools[2], k=days), start, any_rates(rng))
        given = host_cases.random_case(rng, pools[rate_bytes], rate_bytes)
        yield Call(window, given, (rng.choice([240, 241, 300]), rng.choice([240, 241, 300])))


def steep_days():
    """Days at the limits of refusal 6, and one past them, at every term that can meet them; of several days none has the mean."""
    tried = [limits.steep_days(n, term, forward) for n, term in product((1, 2, 3, MOST_DAYS), range(2, TERMS + 1))
             for forward in (-2_000 * n, -2_000 * n - 1, 12_000 * n, 12_000 * n + 1)]
    return [days for days in tried if all(map(rates_within_limits, days))]


# ---------------------------------------------------------------- the order of checks

def on_window(change):
    return lambda call: call._replace(window=change(call.window))


def on_case(fault):
    return lambda call: call._replace(given=fault(call.given))


def lent(*lengths):
    return lambda call: call._replace(lengths=lengths)


def filled(days):
    """The window with these days in place of its own."""
    return on_window(lambda window: placed(days, window.start, window.rates))


def with_sum(window, term, more):
    """The window with the sum of a term so much higher."""
    return window._replace(sums=put(window.sums, term - 1, window.sums[term - 1] + more))


def sum_off(term):
    return on_window(lambda window: with_sum(window, term, 1))


def oldest_past_limit(window):
    """The oldest day has a rate past its limit, and the sum is mended."""
    first, *later = days_held(window) or [[0] * TERMS]
    return placed([put(first, 0, MOST_RATE + 1), *later], window.start, window.rates)


OF_THE_WINDOW = [  # before the case's own
    ("27", [sum_off(1), sum_off(TERMS), on_window(oldest_past_limit), *(
        on_window(lambda window, changed=changed: window._replace(**changed)) for changed in (
            {"count": MOST_DAYS + 1}, {"count": LARGEST}, {"start": MOST_DAYS}, {"start": 1 << 63}))]),
    ("13", [lent(239, 240), lent(240, 239), lent(0, 240), lent(240, 0), lent(0, 0)]),
]
OF_ITS_DAYS = [  # after the case's own: in steps, whatever the case's own rates have
    ("4 of the window", [filled([])]),
    ("6 of the window", [filled(limits.steep_days(n, term, forward)) for n, term, forward in (
        (1, 2, 12_001), (1, 60, -2_001), (2, 3, 24_001), (70, 20, 70 * 12_000 + 1))]),
]


def faults_of(call):
    """(refusal, the ways to be refused with it), in the order of checks, by the days field of the case."""
    own = [(name, [on_case(fault) for fault in ways]) for name, ways in host_cases.faults_of(call.given)]
    return OF_THE_WINDOW + own + OF_ITS_DAYS


def bases(rng):
    """Valuations that are accepted: a small case, and one in which every field stands, of both days fields; few days, and 70."""
    rich = {rate_bytes: reference.given_of(reference.read(files.all_fields(3, rate_bytes))) for rate_bytes in UNITS}
    few, many = examples.flat(100, 300, -200), rng.choices(files.day_pool(rng, 20), k=MOST_DAYS)
    return [Call(placed(few, MOST_DAYS - 2, any_rates(rng)), host_cases.SMALL, (240, 240)),
            Call(placed_anywhere(rng, many), rich[2], (240, 242)), Call(placed_anywhere(rng, few), rich[4], (241, 240))]


def one_fault(call):
    """Each fault alone."""
    return [fault(call) for _, ways in faults_of(call) for fault in ways]


def order(call):
    """Faults of every two checks, each in its first way."""
    return spoiling.two_faults(call, [(name, ways[:1]) for name, ways in faults_of(call)])


# ---------------------------------------------------------------- rows

FREE = [-(1 << 15)] * RATES  # anything may lie in a free slot
DAYS = {  # by name: two with other rates at the first, the second and the last term, and two with a rate past a limit
    "some_day": [1, 2, *[3] * 57, 4],
    "limits_day": [LEAST_RATE, *[20] * 58, MOST_RATE],
    "low_day": [LEAST_RATE - 1, *[0] * 59],
    "high_day": [*[0] * 59, MOST_RATE + 1],
}
SOME, LIMITS, LOW, HIGH = DAYS.values()
TWO = placed([SOME, LIMITS], 0, FREE)
WINDOWS = {  # by name
    "two_days": TWO,
    "wrong_sum": with_sum(TWO, 1, 1),
    "in_last_slot": placed([SOME], MOST_DAYS - 1, FREE),
    "over_the_end": placed([SOME, LIMITS, SOME], MOST_DAYS - 1, FREE),
    "full_window": placed([[5] * TERMS] * MOST_DAYS, 1, [5] * RATES),
    "one_day_left": placed([[5] * TERMS] * (MOST_DAYS - 1), 1, [5] * RATES),
    "flat_days": placed(examples.flat(100, 101), 0, FREE),
}
_, WRONG_SUM, IN_LAST_SLOT, OVER_THE_END, FULL, ONE_LEFT, FLAT = WINDOWS.values()


def right_rows():
    """Windows at the limits of 27, on both sides; past a limit nothing else is wrong."""
    for start in (MOST_DAYS - 1, MOST_DAYS):
        yield f"no day, from slot {start} on", EMPTY._replace(start=start)
    yield "no day, and a sum", with_sum(EMPTY, TERMS, 1)
    yield "two days, both limits, anything in the free slots", TWO
    yield "three days, from slot 69 on", OVER_THE_END
    yield "two days, from slot 70 on", TWO._replace(start=MOST_DAYS)
    yield "71 days", FULL._replace(count=MOST_DAYS + 1, sums=[5 * (MOST_DAYS + 1)] * TERMS)
    yield "the sum of term 1 too high", WRONG_SUM
    yield "the sum of term 60 too low", with_sum(TWO, TERMS, -1)
    yield f"the first rate held: {LEAST_RATE - 1}", placed([LOW, SOME], 0, FREE)
    yield f"the last rate held: {LEAST_RATE - 1}", placed([SOME, LOW[::-1]], 0, FREE)
    yield f"the first rate held: {MOST_RATE + 1}", placed([HIGH[::-1], SOME], 0, FREE)
    yield f"the last rate held: {MOST_RATE + 1}", placed([SOME, HIGH], 0, FREE)


def add_rows():
    """A window and a day: each refusal of an addition, and faults of two checks."""
    yield "5", TWO, HIGH
    yield "27 before 5", WRONG_SUM, HIGH
    yield "27 before 15", FULL._replace(start=MOST_DAYS), SOME


def full_rows():
    """The same for as many days as a window holds, and for one less: these take many steps to compute."""
    yield "15 before 5", FULL, HIGH
    yield "none", ONE_LEFT, SOME


def drop_rows():
    """Each refusal of a drop."""
    yield "16", EMPTY._replace(start=MOST_DAYS - 1)
    yield "27 before 16", with_sum(EMPTY, 1, -1)


def change_rows():
    """Windows and changes of them, None for a drop, of which the window afterwards is written down."""
    yield "added-first", EMPTY, SOME
    yield "added-over-the-end", IN_LAST_SLOT, LIMITS
    yield "added-to-damaged", WRONG_SUM, SOME
    yield "dropped-of-two", TWO, None
    yield "dropped-over-the-end", OVER_THE_END, None
    yield "dropped-of-damaged", WRONG_SUM, None
    yield "refused-day", TWO, HIGH
    yield "dropped-of-none", EMPTY._replace(start=MOST_DAYS - 1), None


def value_rows():
    """Valuations: faults of checks that follow each other, the last fault alone, and none."""
    call, (last, ways) = Call(FLAT, host_cases.SMALL, (240, 240)), OF_ITS_DAYS[-1]
    yield from spoiling.order_rows(call, faults_of(call))
    yield last, ways[0](call)
    yield "none", call


def four_value_rows():
    """Valuations with a case whose days have four bytes: its own 5 and 6 by its own step, then those of the window's days."""
    call = Call(FLAT, host_cases.SMALL_FOUR, (240, 240))
    least, most = host_cases.limits_of_rates(4)
    for rate in (least - 1, least, most, most + 1):
        yield f"all own rates {rate}", call._replace(given=replace(call.given, rates=[rate] * TERMS))
    for forward in host_cases.around_six(1, 4):
        yield f"own growth {forward}", call._replace(given=host_cases.steep(1, 2, forward, 4))
    steep = placed(limits.steep_days(1, 2, 12_001), 0, FREE)
    yield "3 before 9", call._replace(given=replace(call.given, rate_bytes=3, ufr=5_001))
    yield "12 before 4 of the case", call._replace(given=replace(call.given, heads=0, rates=[]))
    yield "6 of the case before 4 of the window", Call(EMPTY, host_cases.steep(1, 2, 1_200_001, 4), (240, 240))
    yield "6 of the window", call._replace(window=steep)


# Where the case's own checks begin and end. Their order among themselves is that of a case that is saved.
QUICK = ["27 before 13", "13 before 3", "12 before 11 of the equity correlation", "11 of the equity correlation before 6",
         "6 before 4 of the window", "4 of the window before 6 of the window", "6 of the window", "none"]


def quick_value_rows():
    return [row for row in value_rows() if row[0] in QUICK]
