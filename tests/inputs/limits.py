"""Files at each limit, on both sides, and in each place of the order of checks: groups of rows (what, file), from METHOD's own limits.

The refusal of a row is that of the reference. tests/writers writes the rows down as computed statements about the definitions, all of them
for the crates `refusals` and `fourbytecases` and the quick ones (QUICK) for `model`, and tests/compare/reader.py puts them to the engine.
A number that passes its check is mostly shown by a file that ends after the field, which is refused with 1: such a file is short. Files
with four-byte days have groups of their own. Their days are the last field: a rate that passes 5 is shown by what comes after it, 0 or 6.
"""

from tests.reference.reference import DAYS_BITS, EQUITY_BIT, FIELD_SHOCKS, REQUIRED_BITS, SHOCK_LIMITS

UFR, BONDS, AMOUNTS, EQUITY = 1 << 0, 1 << 3, 1 << 4, EQUITY_BIT  # the bits of the optional fields
REQUIRED = REQUIRED_BITS | DAYS_BITS[2]
FLOW, AMOUNT, HEADS, AGE = 100_000_000, 100_000_000_000, 1_000_000, 1_200
MOST_UFR, LEAST_RATE, MOST_RATE = 5_000, -1_000, 10_000  # the rates in steps


def number(value, length):
    return value.to_bytes(length, "big")


def bits(*optional, rate_bytes=2):
    return number(REQUIRED_BITS | DAYS_BITS[rate_bytes] | sum(optional), 2)


def rates(*days, rate_bytes=2):
    """The days field; a day is its 60 rates."""
    return number(len(days), 1) + b"".join(number(rate % (1 << 8 * rate_bytes), rate_bytes) for day in days for rate in day)


def flows(*values):
    return number(len(values), 1) + b"".join(number(value, 4) for value in values)


def run(length, *values):
    """Numbers of this many bytes each."""
    return b"".join(number(value, length) for value in values)


def people(heads=1, pension_age=0, mean_age=0):
    return run(4, heads) + run(2, pension_age, mean_age)


FLAT = [0] * 60
DAYS, PENSION, SHOCKS_FIELD = rates(FLAT), flows(7), run(2, *[0] * 12)
TO_PENSION = bits() + DAYS  # the front of a file without the optional fields, up to each field
TO_BONDS = bits(BONDS) + DAYS + PENSION
TO_AMOUNTS = bits(AMOUNTS) + DAYS + PENSION
TO_SHOCKS = bits() + DAYS + PENSION
TO_PEOPLE = TO_SHOCKS + SHOCKS_FIELD
MOST_EQUITY = SHOCK_LIMITS["equity_correlation"]


def put(values, at, value):
    """The values with another at one place."""
    return [*values[:at], value, *values[at + 1:]]


def map_rows():
    yield "no byte", b""
    yield "one byte", b"\0"
    for bit in (1, 2, 5, 6):
        yield f"bit {bit} missing", number(REQUIRED ^ 1 << bit, 2)
    for bit in range(7, 16):
        yield f"bit {bit} standing", number(REQUIRED | 1 << bit, 2)
    yield "the map alone", bits()
    yield "all optional bits", bits(UFR, BONDS, AMOUNTS, EQUITY)


def ufr_rows():
    yield "nothing of it", bits(UFR)
    yield "one byte of it, too high", bits(UFR) + b"\xff"
    for ufr in (5_000, 5_001, 0xFFFF):
        yield f"{ufr}", bits(UFR) + number(ufr, 2)


def count_rows(front, most):
    yield "no count", front
    for count in (0, 1, most, most + 1, 255):
        yield f"{count}", front + number(count, 1)


def rate_rows():
    for day, term in ((1, 1), (1, 60), (2, 1), (2, 60)):
        for rate in (-1_001, -1_000, 10_000, 10_001):
            days = put([FLAT, FLAT], day - 1, put(FLAT, term - 1, rate))
            yield f"{rate}, day {day}, term {term}", bits() + rates(*days)
    yield "short, and the first too high", bits() + rates(put(FLAT, 0, 10_001))[:-1]


def flow_rows(front):
    for at in (0, 1):
        for flow in (FLOW, FLOW + 1, 0xFFFFFFFF):
            yield f"flow {at + 1}: {flow}", front + flows(*put([0, 0], at, flow))
    yield "short, and the first too high", front + flows(FLOW + 1, 0)[:-1]


def amount_rows():
    for at in range(8):
        for amount in (AMOUNT, AMOUNT + 1):
            yield f"amount {at + 1}: {amount}", TO_AMOUNTS + run(8, *put([0] * 8, at, amount))
    yield "short, and the first too high", TO_AMOUNTS + run(8, AMOUNT + 1, *[0] * 7)[:-1]


def shock_rows():
    for at, name in enumerate(FIELD_SHOCKS):
        for shock in (SHOCK_LIMITS[name], SHOCK_LIMITS[name] + 1):
            yield f"{name}: {shock}", TO_SHOCKS + run(2, *put([0] * 12, at, shock))
    yield "short, and the first too high", TO_SHOCKS + run(2, 1_001, *[0] * 11)[:-1]


def people_rows():
    yield "one head", TO_PEOPLE + people()
    yield "all at their limits", TO_PEOPLE + people(HEADS, AGE, AGE)
    for heads in (0, HEADS + 1):
        yield f"{heads} heads", TO_PEOPLE + people(heads)
    yield f"pension age {AGE + 1}", TO_PEOPLE + people(1, AGE + 1, 0)
    yield f"mean age {AGE + 1}", TO_PEOPLE + people(1, 0, AGE + 1)
    yield "short, and no head", TO_PEOPLE + people(0)[:-1]


def equity_rows(front):
    """The equity correlation behind all other fields; one that passes its check is the end of an accepted file."""
    yield "nothing of it", front
    yield "one byte of it, too high", front + b"\xff"
    for thousandths in (0, MOST_EQUITY, MOST_EQUITY + 1, 0xFFFF):
        yield f"{thousandths}", front + number(thousandths, 2)


def equity_order_rows(front, behind):
    """Two faults each, one of which is of the equity correlation: front is the other fields ahead of the people, behind is the days where
    they come later."""
    high, ending = number(MOST_EQUITY + 1, 2), people() + behind
    yield "11 of the shocks before the equity correlation", front + run(2, *[0] * 11, 501) + ending + high
    yield "12 before the missing equity correlation", front + SHOCKS_FIELD + people(0) + behind
    yield "12 before 11 of the equity correlation", front + SHOCKS_FIELD + people(0) + behind + high
    yield "1 before 11 of the equity correlation", front + SHOCKS_FIELD + ending + high[1:]
    yield "11 of the equity correlation before 2", front + SHOCKS_FIELD + ending + high + b"\0"
    yield "2 behind the equity correlation", front + SHOCKS_FIELD + ending + number(0, 2) + b"\0"
    yield "2 for an equity correlation without its bit", number(front[0] & 0xFE, 1) + front[1:] + SHOCKS_FIELD + ending + number(0, 2)


def order_rows():
    """Two faults each: the first that applies is given."""
    full = bits(UFR, BONDS, AMOUNTS)
    high = number(5_001, 2)
    steep = rates([0] + [6_001] * 59)  # refused by 6
    yield "3 before 9", number(0x81 | REQUIRED, 2) + high
    yield "9 before 4", full + high + b"\0"
    yield "4 before the missing rates", bits() + b"\x47"
    yield "5 before 7", bits() + rates(put(FLAT, 59, 10_001)) + b"\0"
    yield "7 before the missing flows", TO_PENSION + b"\x79"
    yield "8 of the pensions before 7 of the bonds", bits(BONDS) + DAYS + flows(FLOW + 1) + b"\0"
    yield "8 of the bonds before 10", bits(BONDS, AMOUNTS) + DAYS + PENSION + flows(FLOW + 1) + run(8, *[AMOUNT + 1] * 8)
    yield "10 before 11", TO_AMOUNTS + run(8, *[AMOUNT + 1] * 8) + run(2, *[1_001] * 12)
    yield "11 before 12", TO_SHOCKS + run(2, *[0] * 11, 501) + people(0)
    yield "12 before 2", TO_PEOPLE + people(0) + b"\0"
    yield "12 before 6", bits() + steep + PENSION + SHOCKS_FIELD + people(0)
    yield "2 before 6", bits() + steep + PENSION + SHOCKS_FIELD + people() + b"\0"
    yield "2 alone", TO_PEOPLE + people() + b"\0"
    yield "none", TO_PEOPLE + people()
    with_equity = bits(EQUITY)
    yield from equity_order_rows(with_equity + DAYS + PENSION, b"")
    yield "3 before 9, with the equity correlation", number(0x201 | EQUITY | REQUIRED, 2) + high
    yield "5 before 11 of the equity correlation", (with_equity + rates(put(FLAT, 59, 10_001)) + PENSION + SHOCKS_FIELD + people()
                                                    + number(MOST_EQUITY + 1, 2))
    yield "11 of the equity correlation before 6", with_equity + steep + PENSION + SHOCKS_FIELD + people() + number(MOST_EQUITY + 1, 2)
    yield "6 behind the equity correlation", with_equity + steep + PENSION + SHOCKS_FIELD + people() + number(0, 2)


def steep_days(n, term, forward):
    """n days with term x s(term) - (term - 1) x s(term - 1) = forward, and all other such growths between."""
    before = forward % term
    after = (forward + (term - 1) * before) // term
    sums = [before] * (term - 1) + [after] * (61 - term)
    first = [total // n + (1 if n > 1 else 0) for total in sums]
    return [first] + [[(total - one) // (n - 1) if day < n - 1 else total - one - (n - 2) * ((total - one) // (n - 1))
                       for total, one in zip(sums, first)] for day in range(1, n)]


def forward_rows():
    for n, term in ((1, 2), (1, 60), (2, 3), (3, 21)):
        for bound in (-2_000 * n, 12_000 * n):
            for more in (0, 1):
                forward = bound + (more if bound > 0 else -more)
                days = rates(*steep_days(n, term, forward))
                yield f"{n} days, term {term}: {forward}", bits() + days + PENSION + SHOCKS_FIELD + people()


def part_rows():
    """A file for each refusal, by its number: it has rates where the part of an accepted one stands."""
    steep = rates([0] + [6_001] * 59)
    yield 1, bits() + rates([1] * 60)[:-1]
    yield 2, TO_PEOPLE + people() + b"\0"
    yield 3, number(0x8000 | REQUIRED, 2) + DAYS
    yield 4, bits() + b"\x47" + DAYS[1:]
    yield 5, bits() + rates(put(FLAT, 0, 10_001))
    yield 6, bits() + steep + PENSION + SHOCKS_FIELD + people()
    yield 7, TO_PENSION + b"\x79"
    yield 8, TO_PENSION + flows(FLOW + 1)
    yield 9, bits(UFR) + number(5_001, 2) + DAYS
    yield 10, TO_AMOUNTS + run(8, AMOUNT + 1, *[0] * 7)
    yield 11, TO_SHOCKS + run(2, 1_001, *[0] * 11)
    yield 12, TO_PEOPLE + people(0)


# ---------------------------------------------------------------- four-byte days

LEAST, MOST = -100_000, 1_000_000  # of a rate of four bytes
TO_DAYS = bits(rate_bytes=4) + PENSION + SHOCKS_FIELD + people()  # the front of a file without the optional fields, up to its days
TO_DAYS_WITH_EQUITY = bits(EQUITY, rate_bytes=4) + PENSION + SHOCKS_FIELD + people()  # and of one with an equity correlation behind them


def four(*days):
    """The days field with four bytes a rate."""
    return rates(*days, rate_bytes=4)


def four_map_rows():
    """Maps alone: one that is right is refused with 1."""
    right, bit_1, bit_7 = REQUIRED_BITS | DAYS_BITS[4], DAYS_BITS[2], DAYS_BITS[4]
    yield "bit 7 in place of bit 1", number(right, 2)
    yield "both bits", number(right | bit_1, 2)
    yield "neither bit", number(right ^ bit_7, 2)
    for bit in (2, 5, 6):
        yield f"bit {bit} missing", number(right ^ 1 << bit, 2)
    for bit in range(8, 16):
        yield f"bit {bit} standing", number(right | 1 << bit, 2)
    yield "all optional bits", bits(UFR, BONDS, AMOUNTS, EQUITY, rate_bytes=4)
    yield "all optional bits and both", number(right | bit_1 | UFR | BONDS | AMOUNTS, 2)


def four_rate_rows():
    for term in (1, 60):
        for rate in (LEAST - 1, LEAST, MOST, MOST + 1):
            yield f"{rate}, day 1, term {term}", TO_DAYS + four(put(FLAT, term - 1, rate))
    for rate in (LEAST - 1, MOST + 1):
        yield f"{rate}, day 2, term 60", TO_DAYS + four(FLAT, put(FLAT, 59, rate))
    for rate in (LEAST, MOST):
        yield f"{rate}, every term", TO_DAYS + four([rate] * 60)
    for rate in (-(1 << 31), (1 << 31) - 1):
        yield f"{rate}, day 1, term 1", TO_DAYS + four(put(FLAT, 0, rate))
    yield "short, and the first too high", TO_DAYS + four(put(FLAT, 0, MOST + 1))[:-1]
    yield "rates of two bytes", TO_DAYS + DAYS


def four_forward_rows():
    for n, term in ((1, 2), (1, 60), (2, 3), (3, 21)):
        for bound in (-200_000 * n, 1_200_000 * n):
            for more in (0, 1):
                forward = bound + (more if bound > 0 else -more)
                yield f"{n} days, term {term}: {forward}", TO_DAYS + four(*steep_days(n, term, forward))


def four_order_rows():
    """Two faults each: the days field comes behind all others, then 2, then 6."""
    high, steep = four(put(FLAT, 0, MOST + 1)), four([0] + [600_001] * 59)
    front, no_head = bits(rate_bytes=4), PENSION + SHOCKS_FIELD + people(0)
    with_bonds = bits(BONDS, rate_bytes=4) + PENSION
    yield "3 before 9", number(0x81 | REQUIRED, 2) + number(5_001, 2)
    yield "9 before 7", bits(UFR, rate_bytes=4) + number(5_001, 2) + b"\0"
    yield "7 of the pensions before 5", front + flows(*[0] * 121) + SHOCKS_FIELD + people() + high
    yield "8 of the pensions before 5", front + flows(FLOW + 1) + SHOCKS_FIELD + people() + high
    yield "7 of the bonds before 5", with_bonds + flows(*[0] * 61) + SHOCKS_FIELD + people() + high
    yield "8 of the bonds before 5", with_bonds + flows(FLOW + 1) + SHOCKS_FIELD + people() + high
    yield "10 before 5", bits(AMOUNTS, rate_bytes=4) + PENSION + run(8, *[AMOUNT + 1] * 8) + SHOCKS_FIELD + people() + high
    yield "11 before 5", front + PENSION + run(2, *[0] * 11, 501) + people() + high
    yield "12 before 5", front + no_head + high
    yield "12 before the missing count", front + no_head
    yield "12 before 4", front + no_head + b"\0"
    yield "4 before the missing rates", TO_DAYS + b"\x47"
    yield "5 before 2", TO_DAYS + high + b"\0"
    yield "2 before 6", TO_DAYS + steep + b"\0"
    yield "6 alone", TO_DAYS + steep
    yield "2 alone", TO_DAYS + four(FLAT) + b"\0"
    yield "none", TO_DAYS + four(FLAT)
    yield from four_equity_order_rows(high, steep)


def four_equity_order_rows(high, steep):
    """Two faults each, one of which is of the equity correlation, or of the days before it."""
    equity = number(MOST_EQUITY + 1, 2)
    yield from equity_order_rows(bits(EQUITY, rate_bytes=4) + PENSION, four(FLAT))
    yield "1 of the count before 11 of the equity correlation", TO_DAYS_WITH_EQUITY
    yield "4 before 11 of the equity correlation", TO_DAYS_WITH_EQUITY + b"\0" + equity
    yield "1 of the rates before 11 of the equity correlation", TO_DAYS_WITH_EQUITY + four(FLAT)[:-3] + equity
    yield "5 before the missing equity correlation", TO_DAYS_WITH_EQUITY + high
    yield "5 before 11 of the equity correlation", TO_DAYS_WITH_EQUITY + high + equity
    yield "11 of the equity correlation before 6", TO_DAYS_WITH_EQUITY + steep + equity
    yield "6 behind the equity correlation", TO_DAYS_WITH_EQUITY + steep + number(0, 2)
    yield "none, with an equity correlation", TO_DAYS_WITH_EQUITY + four(FLAT) + number(MOST_EQUITY, 2)


def groups():
    """(name, what it is, rows) in the order of the file; those with four-byte days are apart."""
    yield "map", "The map: \"a required bit is missing or a forbidden one stands\".", list(map_rows())
    yield "ufr", "The UFR: 0 to 5,000.", list(ufr_rows())
    yield "day-counts", "n: 1 to 70.", list(count_rows(bits(), 70))
    yield "rates", "Each rate: -1,000 to 10,000.", list(rate_rows())
    yield "pension-counts", "m: 1 to 120.", list(count_rows(TO_PENSION, 120))
    yield "pension-flows", "Each pension flow: 0 to 100,000,000.", list(flow_rows(TO_PENSION))
    yield "bond-counts", "k: 1 to 60.", list(count_rows(TO_BONDS, 60))
    yield "bond-flows", "Each bond flow: 0 to 100,000,000.", list(flow_rows(TO_BONDS))
    yield "amounts", "Each amount: 0 to 100,000,000,000.", list(amount_rows())
    yield "shocks", "Each shock, by its own limit.", list(shock_rows())
    yield "people", "H: 1 to 1,000,000; ages: 0 to 1,200.", list(people_rows())
    yield "equity-correlation", "The equity correlation: 0 to 1,000.", list(equity_rows(bits(EQUITY) + TO_PEOPLE[2:] + people()))
    yield "forwards", "Error 6, one below and one above its limits.", list(forward_rows())
    yield "order", "The order of checks: two faults each.", list(order_rows())


def four_byte_groups():
    """Likewise, of files with four-byte days."""
    yield "four-map", "\"Exactly one of bits 1 and 7 stands, otherwise it's 3.\" Bits 9 to 15 must not.", list(four_map_rows())
    yield "four-counts", "n: 1 to 70, behind the people.", list(count_rows(TO_DAYS, 70))
    yield "four-rates", "Each rate: -100,000 to 1,000,000.", list(four_rate_rows())
    with_days = TO_DAYS_WITH_EQUITY + four(FLAT)
    yield "four-equity-correlation", "The equity correlation: 0 to 1,000, behind the days.", list(equity_rows(with_days))
    yield "four-forwards", "Error 6, one below and one above its limits times 100.", list(four_forward_rows())
    yield "four-order", "The order of checks: two faults each.", list(four_order_rows())


# The rows that the must-fail edits of `model` are put to, by group: those that refuse one of them, and few others, since a file that gets
# past its rates takes 20 to 250 ms. A group that is not named has all its rows among them.
QUICK = {
    "rates": ["-1001, day 1, term 1", "10001, day 1, term 1", "short, and the first too high"],
    "pension-counts": ["121"],
    "pension-flows": [f"flow 1: {FLOW + 1}"],
    "bond-counts": ["61"],
    "bond-flows": [f"flow 1: {FLOW + 1}"],
    "amounts": [f"amount 8: {AMOUNT + 1}", "short, and the first too high"],
    "shocks": ["spread: 10000", "duration: 501"],
    "people": ["all at their limits", f"{HEADS + 1} heads"],
    "equity-correlation": ["one byte of it, too high", f"{MOST_EQUITY + 1}"],
    "forwards": ["1 days, term 2: 12001", "2 days, term 3: 24000"],
    "order": ["3 before 9", "9 before 4", "4 before the missing rates", "12 before 2", "2 before 6",
              "12 before 11 of the equity correlation", "11 of the equity correlation before 2"],
    "four-counts": ["no count", "71"],
    "four-rates": [f"{LEAST - 1}, day 1, term 1", f"{MOST + 1}, day 1, term 1", "short, and the first too high"],
    "four-equity-correlation": [],
    "four-forwards": ["1 days, term 2: 1200000"],
    "four-order": ["5 before 11 of the equity correlation"],
}

QUICK_PARTS = (1, 3, 4, 5, 6, 9)


def quick(groups):
    """The groups again, with their quick rows alone."""
    for name, what, rows in groups:
        chosen = [row for row in rows if name not in QUICK or row[0] in QUICK[name]]
        if chosen:
            yield name, what, chosen


def quick_groups():
    return quick(groups())


def quick_part_rows():
    """The parts of files that no field before the rates lets pass, and that of one which 6 refuses."""
    return [(refusal, data) for refusal, data in part_rows() if refusal in QUICK_PARTS]


def all_files():
    """Of both days fields."""
    rows = [row for made in (groups(), four_byte_groups()) for _, _, group in made for row in group]
    return [data for _, data in [*rows, *part_rows()]]
