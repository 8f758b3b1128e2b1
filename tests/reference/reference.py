"""A second implementation of what docs/METHOD.md says, in its order; written without the engine's code, to be run beside the engine.

It has the case file and its refusals, saving a case, the exact working, the rounded working with bonds off the adjusted curve, the search
for a zero rate, and containment and width. For rates in four bytes it rests on readings too (decisions 183 and 184), which it shares with
the definitions: the days field of bit 7 comes after the people, and its checks come in that place; a case that a host hands in says by a
number, 2 or 4, how many bytes its rates have, and any other number is refused with 3 ahead of the checks of the case. Of the correlation
between the equity classes it shares the reading that its field is the last one of a file, behind four-byte days too, and is checked there.
Whole numbers and fractions only; no float occurs.
Command line: python3 -m tests.reference.reference FILE   (- reads standard input)
"""

import sys
from dataclasses import dataclass
from fractions import Fraction
from functools import cached_property
from itertools import combinations
from math import isqrt
from typing import NamedTuple

# ---------------------------------------------------------------- the case file

AMOUNTS = "mature emerging private property commodities credit cash currency".split()
FIELD_SHOCKS = ("up_shift down_shift mature_fall emerging_fall private_fall property_fall currency_fall "
                "commodities_fall spread_rise correlation spread duration").split()  # those of bit 5
SHOCKS = [*FIELD_SHOCKS, "equity_correlation"]  # the last one has a field of its own, of bit 8
# Shifts in steps; eight in thousandths; the spread in steps; the duration in tenths of a year; the last one in thousandths.
SHOCK_LIMITS = dict(zip(SHOCKS, [1_000, 1_000] + [1_000] * 8 + [10_000, 500, 1_000]))
DEFAULT_UFR = 4_200  # "A file without this field has a UFR of 4,200."
DEFAULT_EQUITY_CORRELATION = 1_000  # that of a file without its field: the equity classes fall together
NO_SHOCKS = dict.fromkeys(FIELD_SHOCKS, 0) | {"equity_correlation": DEFAULT_EQUITY_CORRELATION}  # nothing falls or moves
STEPS = 100_000  # "A rate step is 0.00001", so 1 is 100,000 steps.
REQUIRED_BITS = 0b0110_0100  # "Bits 1, 2, 5 and 6 must stand", without bit 1, which bit 7 may take the place of
FORBIDDEN_BITS = 0xFE00  # bits 9 to 15
EQUITY_BIT = 1 << 8  # of the correlation between the equity classes: two bytes, the last field of a file
# The two days fields, by the bytes of a rate.
DAYS_BITS = {2: 1 << 1, 4: 1 << 7}  # "Bit 7 announces a days field of the same form whose rates are four bytes"
UNITS = {2: 1, 4: 100}  # how many units of a rate are a step: its unit is 0.00001, or "steps of 0.0000001"
VERDICTS = DEKKINGSTEKORT, RESERVETEKORT, VRIJ_VERMOGEN, ONBESLIST = (
    "DEKKINGSTEKORT", "RESERVETEKORT", "VRIJ VERMOGEN", "ONBESLIST")


@dataclass
class Case:
    """What an accepted file says; the UFR in steps, rates in units of their days field, money in euros, ages in months."""
    ufr: int
    days: list  # n lists of 60 signed rates
    pension: list
    bonds: list
    amounts: dict
    shocks: dict
    heads: int
    pension_age: int
    mean_age: int
    rate_bytes: int = 2  # of a rate: the days field is that of bit 1, or with 4 that of bit 7

    @property
    def per_step(self):
        """What a step adds to a sum over the days: "n x shift", or "100 x n x shift"."""
        return UNITS[self.rate_bytes] * len(self.days)


@dataclass(frozen=True)
class Refusal:
    number: int


class Refused(Exception):
    """Leaves the reading at the first refusal that applies."""


def refuse_unless(holds, number):
    if not holds:
        raise Refused(number)


class Cursor:
    """"Reading goes by a cursor over the caller's bytes." Big-endian, "unsigned unless said"."""

    def __init__(self, data):
        self.data, self.offset = data, 0

    def need(self, length):
        """1: "it ends inside the map or inside a field whose bit stands"."""
        refuse_unless(len(self.data) - self.offset >= length, 1)

    def number(self, length):
        self.need(length)
        self.offset += length
        return int.from_bytes(self.data[self.offset - length:self.offset], "big")

    def numbers(self, count, length):
        """"the rest of its length (1)" comes before any number of the field is looked at."""
        self.need(count * length)
        return [self.number(length) for _ in range(count)]


def twos_complement(number, length):
    """"each 2 bytes two's complement", or "four bytes, two's complement"."""
    all_numbers = 1 << 8 * length
    return number - all_numbers if 2 * number >= all_numbers else number


def sums(days):
    """s(0) to s(60): "s(t) the sum of term t's rates over the days and s(0) = 0"."""
    return [0] + [sum(day[t - 1] for day in days) for t in range(1, 61)]


def growths_within_limits(days, units=1):
    """6: "some t x s(t) - (t - 1) x s(t-1) is below -2,000 x n or above 12,000 x n"; "multiplied by 100" for four bytes."""
    per_step, s = units * len(days), sums(days)
    return all(-2_000 * per_step <= t * s[t] - (t - 1) * s[t - 1] <= 12_000 * per_step for t in range(1, 61))


# The limits, of a file that is read and of a case that is handed in.

def check_ufr(ufr):
    refuse_unless(ufr <= 5_000, 9)


def check_day_count(n):
    refuse_unless(1 <= n <= 70, 4)


def rates_within_limits(rates, units=1):
    """"-1,000 to 10,000 steps"; of four bytes "limits -100,000 to 1,000,000"."""
    return all(-1_000 * units <= rate <= 10_000 * units for rate in rates)


def check_rates(rates, units=1):
    refuse_unless(rates_within_limits(rates, units), 5)


def check_flow_count(count, most):
    refuse_unless(1 <= count <= most, 7)


def check_flows(flows):
    refuse_unless(all(flow <= 100_000_000 for flow in flows), 8)


def check_amounts(amounts):
    refuse_unless(all(amount <= 100_000_000_000 for amount in amounts.values()), 10)


def check_shocks(shocks):
    """Those of bit 5."""
    refuse_unless(all(shocks[name] <= SHOCK_LIMITS[name] for name in FIELD_SHOCKS), 11)


def check_equity_correlation(thousandths):
    """In the place of its field: behind the people and behind four-byte days."""
    refuse_unless(thousandths <= SHOCK_LIMITS["equity_correlation"], 11)


def check_people(heads, pension_age, mean_age):
    refuse_unless(1 <= heads <= 1_000_000 and pension_age <= 1_200 and mean_age <= 1_200, 12)


def check_growths(days, units=1):
    refuse_unless(growths_within_limits(days, units), 6)


def in_days(rates):
    """The rates of n days in a row, day by day."""
    return [rates[at:at + 60] for at in range(0, len(rates), 60)]


def read_ufr(cursor):
    [ufr] = cursor.numbers(1, 2)
    check_ufr(ufr)
    return ufr


def rate_bytes_in(bits):
    """How many bytes a rate has by the map: "Exactly one of bits 1 and 7 stands, otherwise it's 3"."""
    standing = [rate_bytes for rate_bytes, bit in DAYS_BITS.items() if bits & bit]
    refuse_unless(len(standing) == 1, 3)
    return standing[0]


def read_days(cursor, rate_bytes):
    """The days, and where their rates stand as (offset, length): "all n x 120 bytes", or "n x 240 bytes"."""
    n = cursor.number(1)
    check_day_count(n)
    offset = cursor.offset
    rates = [twos_complement(rate, rate_bytes) for rate in cursor.numbers(n * 60, rate_bytes)]
    check_rates(rates, UNITS[rate_bytes])
    return in_days(rates), (offset, 60 * rate_bytes * n)


def read_flows(cursor, most):
    count = cursor.number(1)
    check_flow_count(count, most)
    flows = cursor.numbers(count, 4)
    check_flows(flows)
    return flows


def read_amounts(cursor):
    amounts = dict(zip(AMOUNTS, cursor.numbers(8, 8)))
    check_amounts(amounts)
    return amounts


def read_shocks(cursor):
    """The twelve of bit 5; the thirteenth has its absent value."""
    shocks = dict(zip(FIELD_SHOCKS, cursor.numbers(12, 2)))
    check_shocks(shocks)
    return NO_SHOCKS | shocks


def read_equity_correlation(cursor):
    [thousandths] = cursor.numbers(1, 2)
    check_equity_correlation(thousandths)
    return thousandths


def read_people(cursor):
    cursor.need(8)  # the field is complete before its numbers are judged
    people = cursor.number(4), cursor.number(2), cursor.number(2)
    check_people(*people)
    return people


def read_fields(data):
    """The map, then each field in bit order, then 2, then 6; raises Refused."""
    cursor = Cursor(data)
    bits = cursor.number(2)
    refuse_unless(bits & REQUIRED_BITS == REQUIRED_BITS and not bits & FORBIDDEN_BITS, 3)
    rate_bytes = rate_bytes_in(bits)
    stands = lambda bit: bits >> bit & 1
    ufr = read_ufr(cursor) if stands(0) else DEFAULT_UFR
    if stands(1):
        days, part = read_days(cursor, rate_bytes)
    pension = read_flows(cursor, 120)
    bonds = read_flows(cursor, 60) if stands(3) else []
    amounts = read_amounts(cursor) if stands(4) else dict.fromkeys(AMOUNTS, 0)
    shocks = read_shocks(cursor)
    people = read_people(cursor)
    if stands(7):
        days, part = read_days(cursor, rate_bytes)
    if stands(8):
        shocks["equity_correlation"] = read_equity_correlation(cursor)
    refuse_unless(cursor.offset == len(data), 2)
    check_growths(days, UNITS[rate_bytes])
    return Case(ufr, days, pension, bonds, amounts, shocks, *people, rate_bytes), part


def read_with_part(data: bytes) -> tuple[Case | Refusal, tuple[int, int]]:
    """The case or the refusal, and "the part of the file that holds the rates" as (offset, length)."""
    try:
        return read_fields(data)
    except Refused as refused:
        return Refusal(refused.args[0]), (0, 0)


def read(data: bytes) -> Case | Refusal:
    return read_with_part(data)[0]


def refusal(data: bytes) -> int:
    """The number of the refusal, and 0 where the file is accepted."""
    answer = read(data)
    return answer.number if isinstance(answer, Refusal) else 0


def rates_part(data: bytes) -> tuple[int, int]:
    return read_with_part(data)[1]


def encode(case: Case, ufr_present: bool, bonds_present: bool, amounts_present: bool, equity_present: bool | None = None) -> bytes:
    """The case file of a case; where nothing is said of the equity correlation, its field stands where it must. Checks no limits, so that
    bad files can be built as well."""
    equity = case.shocks["equity_correlation"]
    if equity_present is None:
        equity_present = equity != DEFAULT_EQUITY_CORRELATION
    if not ((ufr_present or case.ufr == DEFAULT_UFR) and (bonds_present or not case.bonds)
            and (amounts_present or not any(case.amounts.values())) and (equity_present or equity == DEFAULT_EQUITY_CORRELATION)):
        raise ValueError("a field left out does not have its absent value")
    number = lambda value, length: value.to_bytes(length, "big")
    flows = lambda values: number(len(values), 1) + b"".join(number(flow, 4) for flow in values)
    days = number(len(case.days), 1)
    days += b"".join(rate.to_bytes(case.rate_bytes, "big", signed=True) for day in case.days for rate in day)
    out = number(REQUIRED_BITS | DAYS_BITS[case.rate_bytes] | ufr_present << 0 | bonds_present << 3 | amounts_present << 4
                 | equity_present * EQUITY_BIT, 2)
    if ufr_present:
        out += number(case.ufr, 2)
    if case.rate_bytes == 2:
        out += days
    out += flows(case.pension)
    if bonds_present:
        out += flows(case.bonds)
    if amounts_present:
        out += b"".join(number(case.amounts[name], 8) for name in AMOUNTS)
    out += b"".join(number(case.shocks[name], 2) for name in FIELD_SHOCKS)
    out += number(case.heads, 4) + number(case.pension_age, 2) + number(case.mean_age, 2)
    if case.rate_bytes == 4:
        out += days
    return out + number(equity, 2) if equity_present else out


# ---------------------------------------------------------------- saving a case: METHOD, Saving a case

@dataclass
class Given:
    """A case as a host hands it in to be saved: any numbers, and lists of any length."""
    ufr: int
    rates: list  # 60 a day, day after day
    pension: list
    bonds: list
    amounts: dict
    shocks: dict
    heads: int
    pension_age: int
    mean_age: int
    rate_bytes: int = 2  # how many bytes a rate has: 2 or 4, and no other number is right


class Saved(NamedTuple):
    refusal: int  # 0 where the case is written
    written: int  # "The writer returns the count of bytes written."
    after: bytes  # what the lent buffer holds then


def given_of(case: Case) -> Given:
    rates = [rate for day in case.days for rate in day]
    return Given(case.ufr, rates, case.pension, case.bonds, case.amounts, case.shocks, case.heads, case.pension_age,
                 case.mean_age, case.rate_bytes)


def case_of(given: Given) -> Case:
    return Case(given.ufr, in_days(given.rates), given.pension, given.bonds, given.amounts, given.shocks, given.heads,
                given.pension_age, given.mean_age, given.rate_bytes)


def check_given_days(rates, units):
    n, left_over = divmod(len(rates), 60)
    refuse_unless(left_over == 0, 4)  # rates that are no whole days have no n within limits
    check_day_count(n)
    check_rates(rates, units)


def check_case(given):
    """A case outside the limits gets the number that its file would get, in that order: "each field in bit order: its count ..., its
    numbers from the front; ... then 6". Of a case without bytes 1 and 2 cannot be said; 3 is said of rates of another number of bytes,
    since that case's map has neither bit."""
    refuse_unless(given.rate_bytes in UNITS, 3)
    units = UNITS[given.rate_bytes]
    check_ufr(given.ufr)
    if given.rate_bytes == 2:
        check_given_days(given.rates, units)
    check_flow_count(len(given.pension), 120)
    check_flows(given.pension)
    if given.bonds:  # "Absent: k = 0."
        check_flow_count(len(given.bonds), 60)
        check_flows(given.bonds)
    check_amounts(given.amounts)
    check_shocks(given.shocks)
    check_people(given.heads, given.pension_age, given.mean_age)
    if given.rate_bytes == 4:
        check_given_days(given.rates, units)
    check_equity_correlation(given.shocks["equity_correlation"])
    check_growths(in_days(given.rates), units)


def case_refusal(given: Given) -> int:
    """0 where the case is accepted."""
    try:
        check_case(given)
    except Refused as refused:
        return refused.args[0]
    return 0


def needed_fields(case):
    """Which optional fields stand, as encode takes them: "A UFR of 4,200, an all-zero amounts field and an empty bond list are left
    out", and an equity correlation of 1,000."""
    return (case.ufr != DEFAULT_UFR, bool(case.bonds), any(case.amounts.values()),
            case.shocks["equity_correlation"] != DEFAULT_EQUITY_CORRELATION)


def shortest(given: Given) -> bytes:
    """An accepted case in the layout of the case file, and in its shortest form."""
    case = case_of(given)
    return encode(case, *needed_fields(case))


def save(given: Given, held: bytes) -> Saved:
    """Writes a case into a lent buffer that holds these bytes.

    "a case outside the limits gets ... number in its order; then 14 when the lent buffer is shorter than the bytes needed, and a
    refusal writes no byte"; "The buffer's bytes past the written ones keep their content."
    """
    number = case_refusal(given)
    if number:
        return Saved(number, 0, held)
    data = shortest(given)
    if len(held) < len(data):
        return Saved(14, 0, held)
    return Saved(0, len(data), data + held[len(data):])


# ---------------------------------------------------------------- the exact working

WEIGHTS = dict(zip(range(21, 61), map(int, (  # in thousandths, terms 21 to 60
    "86 186 274 351 420 481 536 584 628 666 701 732 760 785 808 828 846 863 878 891 903 914 923 932 "
    "940 947 954 960 965 970 974 978 982 985 988 990 993 995 997 998").split())))


def shifts(case):
    """The three curves: what "Up and down curves add ... to, or take ... from, every mean rate", in steps."""
    return {"base": 0, "up": case.shocks["up_shift"], "down": -case.shocks["down_shift"]}


class ExactCurve:
    """One curve over fractions; shift in steps, 0 for the base curve."""

    def __init__(self, case, shift=0):
        self.N, self.s, self.shift = STEPS * case.per_step, sums(case.days), shift
        self.ufr_growth = 1 + Fraction(case.ufr, STEPS)
        self.products = [Fraction(1)]  # grows on demand, so that no product is built twice

    def mean_rate(self, t):
        """R(t) = s(t) / N, "never rounded". The shift is added "to every mean rate at terms 1 to 60"."""
        return Fraction(self.s[t], self.N) + Fraction(self.shift, STEPS)

    def growth(self, t):
        """G(t) = (1 + R(t))^t / (1 + R(t-1))^(t-1)."""
        if t == 1:
            return 1 + self.mean_rate(1)  # R(0) stands to the power 0
        return (1 + self.mean_rate(t)) ** t / (1 + self.mean_rate(t - 1)) ** (t - 1)

    def adjusted_growth(self, t):
        """"G(t) up to 20, (1 - w) x G(t) + w x (1 + UFR) for 21 to 60, and 1 + UFR for 61 to 120"."""
        if t <= 20:
            return self.growth(t)
        if t <= 60:
            w = Fraction(WEIGHTS[t], 1_000)
            return (1 - w) * self.growth(t) + w * self.ufr_growth
        return self.ufr_growth

    def product(self, t):
        """The product of growths 1 to t; also (1 + zero rate)^t."""
        while len(self.products) <= t:
            self.products.append(self.products[-1] * self.adjusted_growth(len(self.products)))
        return self.products[t]

    def factor(self, t):
        """"one over the product of growths 1 to t"."""
        return 1 / self.product(t)

    def bond_factor(self, t):
        """"bond flows at every term use the rule ... for factors up to term 20": one over the product of the growths G(1) to G(t) as they
        are, without weights and UFR. METHOD, Bonds off the adjusted curve."""
        product = Fraction(1)
        for year in range(1, t + 1):
            product *= self.growth(year)
        return 1 / product

    def worth(self, flows, growth):
        """"flows times factors", in cents; growth gives each growth of the product in a factor.

        Summed from the last term inwards, f1/g1 + f2/(g1 g2) + ... = (f1 + (f2 + ...)/g2)/g1: the
        same sum, but each step meets one short growth instead of two fractions of 10,000 digits.
        """
        total = Fraction(0)
        for t in range(len(flows), 0, -1):
            total = (total + 100 * flows[t - 1]) / growth(t)
        return total

    def pension_worth(self, flows):
        """Flows times the factors of the adjusted curve."""
        return self.worth(flows, self.adjusted_growth)

    def bond_worth(self, flows):
        """Flows times bond factors."""
        return self.worth(flows, self.growth)


def exact_tso(case):
    """"TSO = 2 + 9/40 x years by which pension age exceeds mean age (0 if it doesn't)", in percent."""
    return 2 + Fraction(9, 40) * Fraction(max(0, case.pension_age - case.mean_age), 12)


def exact_nsa_squared(case):
    """"NSA = 60 / root of H", squared; in percent squared."""
    return Fraction(3_600, case.heads)


@dataclass(frozen=True)
class Surd:
    """The number plain + factor x root(radicand), of fractions; factor and radicand are not below 0. It is compared with fractions alone:
    what they exceed the plain part by is compared with the rest, through squares."""
    plain: Fraction
    factor: Fraction
    radicand: Fraction

    @property
    def rest_squared(self):
        return self.factor ** 2 * self.radicand

    def __ge__(self, x):
        return at_most_root(x - self.plain, self.rest_squared)

    def __le__(self, x):
        return root_at_most(self.rest_squared, x - self.plain)


EQUITY = "mature", "emerging", "private", "property"  # the four classes of S2


def pairs_product_sum(losses):
    """The products of all pairs, each pair once: six of four losses."""
    return sum(one * other for one, other in combinations(losses, 2))


class Exact:
    """The exact working of one case: money in cents, S2, S6 and S as their squares."""

    def __init__(self, case):
        self.case = case
        self.base, self.up, self.down = (ExactCurve(case, shift) for shift in shifts(case).values())

    @cached_property
    def L(self):
        return self.base.pension_worth(self.case.pension)

    @cached_property
    def B(self):
        return self.base.bond_worth(self.case.bonds)

    @cached_property
    def A(self):
        """"B plus all amounts except currency exposure"."""
        return self.B + 100 * sum(self.case.amounts[name] for name in AMOUNTS if name != "currency")

    def fall(self, curve):
        """The fall of B - L from the base curve to another."""
        return (self.B - self.L) - (curve.bond_worth(self.case.bonds) - curve.pension_worth(self.case.pension))

    @cached_property
    def S1(self):
        """"the larger fall of B - L ..., or 0 if neither falls"."""
        return max(self.fall(self.up), self.fall(self.down), Fraction(0))

    def loss(self, name):
        """An amount times its thousandths, in cents."""
        return Fraction(100 * self.case.amounts[name] * self.case.shocks[name + "_fall"], 1_000)

    @cached_property
    def S2_squared(self):
        """The squares of the four losses, and twice the equity correlation times each pair's product."""
        losses = [self.loss(name) for name in EQUITY]
        correlation = Fraction(self.case.shocks["equity_correlation"], 1_000)
        return sum(loss ** 2 for loss in losses) + 2 * correlation * pairs_product_sum(losses)

    @cached_property
    def S3(self):
        return self.loss("currency")

    @cached_property
    def S4(self):
        return self.loss("commodities")

    @cached_property
    def S5(self):
        """"credit x duration x spread x spread rise, not capped"."""
        shocks = self.case.shocks
        return (100 * self.case.amounts["credit"] * Fraction(shocks["duration"], 10)
                * Fraction(shocks["spread"], STEPS) * Fraction(shocks["spread_rise"], 1_000))

    @cached_property
    def S6_squared(self):
        """S6: "L x the root of (TSO^2 + NSA^2), in percent"."""
        return self.L ** 2 * (exact_tso(self.case) ** 2 + exact_nsa_squared(self.case)) / 100 ** 2

    @cached_property
    def S_squared(self):
        """"the root of S1^2 + S2^2 + 2 x correlation x S1 x S2 + S3^2 + S4^2 + S5^2 + S6^2": in the mixed term S2 is a root."""
        correlation = Fraction(self.case.shocks["correlation"], 1_000)
        squares = self.S1 ** 2 + self.S2_squared + self.S3 ** 2 + self.S4 ** 2 + self.S5 ** 2 + self.S6_squared
        return Surd(squares, 2 * correlation * self.S1, self.S2_squared)

    @cached_property
    def verdict(self):
        return exact_verdict(self.A, self.L, self.S_squared)


def exact_verdict(A, L, S_squared):
    if 20 * A < 21 * L:
        return DEKKINGSTEKORT
    if not root_at_most(S_squared, A - L):  # A < L + S
        return RESERVETEKORT
    return VRIJ_VERMOGEN


def at_most_root(x, square):
    """x <= root(square), through squares. A square that is a surd is compared by squaring once more."""
    return x <= 0 or square >= x * x


def root_at_most(square, x):
    """root(square) <= x, likewise."""
    return x >= 0 and square <= x * x


# ---------------------------------------------------------------- the rounded working

ONE = 10 ** 12  # "Factors count 10^-12"
LOWER, UPPER = ENDS = 0, 1  # a bracket is the pair (lower, upper)
MONEY = "L B A S1 S2 S3 S4 S5 S6 S".split()
ROOTS = "S2 S6 S".split()  # in general no fractions: Exact has their squares
EXACT = [f"{name}_squared" if name in ROOTS else name for name in MONEY]  # what Exact has of each figure


def divide(a, b, end):
    """"A lower number rounds down at every step, an upper one up." (b is above 0.)"""
    return a // b if end == LOWER else -(-a // b)


def root(x, end):
    """"floor and ceiling root" of a whole number."""
    floor = isqrt(x)
    return floor if end == LOWER or floor * floor == x else floor + 1


def points(case, shift=0):
    """"N = 100,000 x n; P(t) = N + s(t), where a shift adds or takes n x shift"; for four bytes "N is 10,000,000 x n" and "a
    shift adds or takes 100 x n x shift"."""
    N = STEPS * case.per_step
    return N, [N + s + case.per_step * shift for s in sums(case.days)]  # P[0] is never used


def growth_over(P, t, j, end):
    """"The growth over j years is that over j - 1 years taken once more"; "over 0 years it is 10^12"."""
    return ONE if j == 0 else divide(growth_over(P, t, j - 1, end) * P[t], P[t - 1], end)


def growth(N, P, t, end):
    """"from 10^12, t - 1 times x P(t) / P(t-1), then x P(t) / N"."""
    return divide(growth_over(P, t, t - 1, end) * P[t], N, end)


def weighed_growth(N, P, ufr, t, end):
    """"weigh the growth with 10^12 + UFR x 10^7, / 1,000"; "From 61: the UFR growth"."""
    ufr_growth = ONE + ufr * 10 ** 7
    if t >= 61:
        return ufr_growth
    w = WEIGHTS[t]
    return divide((1_000 - w) * growth(N, P, t, end) + w * ufr_growth, 1_000, end)


def unadjusted_factor(N, P, t, end):
    """"Factor, t to 20: from 10^12, t times x N / P(t)". Of a bond flow at every term."""
    factor = ONE
    for _ in range(t):
        factor = divide(factor * N, P[t], end)
    return factor


def next_factor(old, weighed):
    """"new lower factor = old lower x 10^12 / upper growth, and crosswise"."""
    return (divide(old[LOWER] * ONE, weighed[UPPER], LOWER),
            divide(old[UPPER] * ONE, weighed[LOWER], UPPER))


def rounded_factors(case, shift=0, last=120):
    """Brackets of the factors of terms 1 to last, at the places 1 to last; place 0 holds 1."""
    N, P = points(case, shift)
    factors = [(ONE, ONE)]
    for t in range(1, last + 1):
        if t <= 20:
            factors.append(tuple(unadjusted_factor(N, P, t, end) for end in ENDS))
        else:
            weighed = [weighed_growth(N, P, case.ufr, t, end) for end in ENDS]
            factors.append(next_factor(factors[-1], weighed))
    return factors


def bond_factors(case, shift=0):
    """Brackets at the places 1 to k, likewise: "bond flows at every term use the rule ... for factors up to term 20, on all three
    curves". METHOD, Bonds off the adjusted curve."""
    N, P = points(case, shift)
    return [(ONE, ONE)] + [tuple(unadjusted_factor(N, P, t, end) for end in ENDS)
                           for t in range(1, len(case.bonds) + 1)]


def discounted(z, t, end):
    """"Multiply 10^12 t times by 100,000 / (100,000 + z)"."""
    result = ONE
    for _ in range(t):
        result = divide(result * STEPS, STEPS + z, end)
    return result


TESTED_STEPS = range(-2_000, 20_001)  # "test steps z from -2,000 to 20,000"


def lower_rate(factor, t, by="bisection"):
    """"the largest z whose lower result is at least the upper factor"."""
    passes = lambda z: discounted(z, t, LOWER) >= factor[UPPER]
    if by == "scan":
        return max(z for z in TESTED_STEPS if passes(z))
    good, bad = TESTED_STEPS[0], TESTED_STEPS[-1] + 1  # the result never rises with z
    assert passes(good), "no tested step has a lower result that large"
    while bad - good > 1:
        middle = (good + bad) // 2
        good, bad = (middle, bad) if passes(middle) else (good, middle)
    return good


def upper_rate(factor, t, by="bisection"):
    """"the smallest z whose upper result is at most the lower factor"."""
    passes = lambda z: discounted(z, t, UPPER) <= factor[LOWER]
    if by == "scan":
        return min(z for z in TESTED_STEPS if passes(z))
    bad, good = TESTED_STEPS[0] - 1, TESTED_STEPS[-1]
    assert passes(good), "no tested step has an upper result that small"
    while good - bad > 1:
        middle = (good + bad) // 2
        bad, good = (bad, middle) if passes(middle) else (middle, good)
    return good


def zero_rate(factor, t, by="bisection"):
    return lower_rate(factor, t, by), upper_rate(factor, t, by)


# METHOD, The search for a zero rate: "the search for the lower and the upper rate is to halve the interval from -2,000 to 20,000".

class StepsLeft(NamedTuple):
    """The steps that no test has ruled out: from first to last, both included. They count from 0, which is -2,000."""
    first: int
    last: int


ALL_STEPS = StepsLeft(0, len(TESTED_STEPS) - 1)
TESTS = 15  # "a budget of 15 tests always suffices"


def middle(left, end):
    """The step tested next. Of two in the middle the search for the lower rate takes the later, that for the upper rate
    the earlier: of two steps, the other one rules out nothing where it passes."""
    return (left.first + left.last + 1) // 2 if end == LOWER else (left.first + left.last) // 2


def halved(left, passes, end):
    """What one test leaves. A step that passes may be the rate itself and stays; one that fails is ruled out.

    The lower rate is "the largest z" that passes: all steps before a passing one go, and all after a failing one. The
    upper rate is "the smallest z", the other way round. A single step is not tested.
    """
    if left.first == left.last:
        return left
    step = middle(left, end)
    if end == LOWER:
        return StepsLeft(step, left.last) if passes(step) else StepsLeft(left.first, step - 1)
    return StepsLeft(left.first, step) if passes(step) else StepsLeft(step + 1, left.last)


def halvings(passes, end, left=ALL_STEPS):
    """What is left after 0, 1, .. 15 tests."""
    found = [left]
    for _ in range(TESTS):
        found.append(halved(found[-1], passes, end))
    return found


def most_left(tests):
    """"After j tests at most 22,001 / 2^j steps, rounded up, are left"."""
    return divide(22_001, 2 ** tests, UPPER)


def step_passes(step, factor, t, end):
    """The test of a step, "whose lower result is at least the upper factor" or "whose upper result is at most
    the lower factor"."""
    result = discounted(TESTED_STEPS[step], t, end)
    return result >= factor[UPPER] if end == LOWER else result <= factor[LOWER]


def steps_left(factor, t, end):
    """The steps left of the search for a term's lower or upper rate, after 0, 1, .. 15 tests."""
    return halvings(lambda step: step_passes(step, factor, t, end), end)


def worth(flows, factors):
    """"Flow: euros x factor / 10^10, rounded each; then summed." Euros at 10^-12, so cents."""
    return tuple(sum(divide(flow * factors[t][end], 10 ** 10, end) for t, flow in enumerate(flows, 1))
                 for end in ENDS)


def rounded_fall(B, L, shifted_B, shifted_L):
    """The fall of B - L: "differences pair a lower with an upper end"."""
    return ((B[LOWER] - L[UPPER]) - (shifted_B[UPPER] - shifted_L[LOWER]),
            (B[UPPER] - L[LOWER]) - (shifted_B[LOWER] - shifted_L[UPPER]))


def rounded_S1(falls):
    """"the maximum with 0 is taken of each end"."""
    return tuple(max([0] + [fall[end] for fall in falls]) for end in ENDS)


def rounded_once(numerator, denominator):
    """S3 to S5: both ends of one quotient."""
    return tuple(divide(numerator, denominator, end) for end in ENDS)


def rounded_S2(losses, correlation):
    """Both ends of one root, of whole tenths of a cent and thousandths: 1,000 x 10^2 of a cent squared.

    The quotient may be rounded before the root: floor(root x) = floor(root(floor x)), likewise up.
    """
    square = 1_000 * sum(loss ** 2 for loss in losses) + 2 * correlation * pairs_product_sum(losses)
    return tuple(root(divide(square, 100_000, end), end) for end in ENDS)


def rounded_S6(L, case):
    """"floor and ceiling root of L^2 x (H x (320 + 3d)^2 + 92,160,000) / (256,000,000 x H)".

    The quotient may be rounded before the root: floor(root x) = floor(root(floor x)), likewise up.
    """
    H, d = case.heads, max(0, case.pension_age - case.mean_age)
    return tuple(root(divide(L[end] ** 2 * (H * (320 + 3 * d) ** 2 + 92_160_000),
                             256_000_000 * H, end), end) for end in ENDS)


def rounded_S(parts, correlation):
    """"floor and ceiling root from the lower or upper S1 to S6"; correlation in thousandths."""
    def one_end(end):
        S1, S2 = parts[0][end], parts[1][end]
        square = 1_000 * sum(part[end] ** 2 for part in parts) + 2 * correlation * S1 * S2
        return root(divide(square, 1_000, end), end)
    return one_end(LOWER), one_end(UPPER)


def rounded_verdict(A, L, S):
    if 20 * A[UPPER] < 21 * L[LOWER]:
        return DEKKINGSTEKORT
    if 20 * A[LOWER] >= 21 * L[UPPER]:
        if A[UPPER] < L[LOWER] + S[LOWER]:
            return RESERVETEKORT
        if A[LOWER] >= L[UPPER] + S[UPPER]:
            return VRIJ_VERMOGEN
    return ONBESLIST


def allowed_width(flows):
    """WL and WB: "2 x m + Q, where Q is the sum of 4 x t x t x flow ..., divided by 10^10 and rounded up"."""
    total = sum(4 * t * t * flow for t, flow in enumerate(flows, 1))
    return 2 * len(flows) + divide(total, 10 ** 10, UPPER)


class Rounded:
    """The rounded working of one case; every figure is a bracket."""

    def __init__(self, case):
        self.case = case
        amounts, shocks = case.amounts, case.shocks
        self.factors = rounded_factors(case)  # those given; bond flows have others
        self.L = worth(case.pension, self.factors)
        self.Bs = {name: worth(case.bonds, bond_factors(case, shift)) for name, shift in shifts(case).items()}
        self.B = self.Bs["base"]
        held = 100 * sum(amounts[name] for name in AMOUNTS if name != "currency")
        self.A = tuple(self.B[end] + held for end in ENDS)
        moved_L = lambda shift: worth(case.pension, rounded_factors(case, shift, len(case.pension)))
        self.falls = {name: rounded_fall(self.B, self.L, self.Bs[name], moved_L(shift))
                      for name, shift in shifts(case).items() if name != "base"}
        self.S1 = rounded_S1(self.falls.values())
        # A euro's thousandth is a tenth of a cent.
        self.S2 = rounded_S2([amounts[name] * shocks[name + "_fall"] for name in EQUITY], shocks["equity_correlation"])
        self.S3 = rounded_once(amounts["currency"] * shocks["currency_fall"], 10)
        self.S4 = rounded_once(amounts["commodities"] * shocks["commodities_fall"], 10)
        # 100 cents, over tenths of a year, rate steps and thousandths: 10 x 100,000 x 1,000 / 100.
        self.S5 = rounded_once(amounts["credit"] * shocks["duration"] * shocks["spread"]
                               * shocks["spread_rise"], 10 ** 7)
        self.S6 = rounded_S6(self.L, case)
        self.S = rounded_S((self.S1, self.S2, self.S3, self.S4, self.S5, self.S6), shocks["correlation"])
        self.verdict = rounded_verdict(self.A, self.L, self.S)
        self.WL, self.WB = allowed_width(case.pension), allowed_width(case.bonds)

    @cached_property
    def zero_rates(self):
        """Brackets at the places 1 to 120, like the factors."""
        return [None] + [zero_rate(self.factors[t], t) for t in range(1, 121)]


# ---------------------------------------------------------------- containment and width

def in_bracket(exact, name, bracket):
    """Whether the exact figure of that name lies in a bracket; a root through its square."""
    lower, upper = bracket
    if name in ROOTS:
        square = getattr(exact, f"{name}_squared")
        return at_most_root(lower, square) and root_at_most(square, upper)
    return lower <= getattr(exact, name) <= upper


def containment_and_width(case: Case, exact=None, rounded=None) -> list[str]:
    """The sentences of containment and width that the case breaks; none when all hold.

    S2, S6, S and a zero rate are compared with other numbers through squares or t-th powers.
    """
    exact, rounded = exact or Exact(case), rounded or Rounded(case)
    broken = []

    def check(holds, sentence):
        if not holds:
            broken.append(sentence)

    def narrow(bracket, most, name):
        check(bracket[UPPER] - bracket[LOWER] <= most, f"{name} is at most {most} wide")

    for t in range(1, 121):
        lower, upper = rounded.factors[t]
        product = exact.base.product(t)
        # lower <= 10^12 / product <= upper, multiplied out
        check(lower * product <= ONE <= upper * product, f"exact factor {t} lies in its bracket")
        narrow((lower, upper), 4 * t * t, f"factor {t}")
        lower, upper = rounded.zero_rates[t]
        check(Fraction(STEPS + lower, STEPS) ** t <= product <= Fraction(STEPS + upper, STEPS) ** t,
               f"exact zero rate {t} lies in its bracket")
        narrow((lower, upper), 2, f"zero rate {t}")
    for name in MONEY:
        check(in_bracket(exact, name, getattr(rounded, name)), f"exact {name} lies in its bracket")
    WL, WB = rounded.WL, rounded.WB
    narrow(rounded.L, WL, "L")
    narrow(rounded.B, WB, "B")
    narrow(rounded.A, WB, "A")
    narrow(rounded.S, 3 * WL + 2 * WB + 8, "S")
    if rounded.verdict == ONBESLIST:
        check(within_margins(exact, WL, WB), "undecided is said only within the margins of a border")
    else:
        check(rounded.verdict == exact.verdict, "the verdict given is the exact one")
    return broken


def within_margins(exact, WL, WB):
    """"exact |20 x A - 21 x L| is at most 20 x WB + 21 x WL, or |A - L - S| at most 4 x WL + 3 x WB + 8"."""
    over, margin = exact.A - exact.L, 4 * WL + 3 * WB + 8
    return (abs(20 * exact.A - 21 * exact.L) <= 20 * WB + 21 * WL
            or at_most_root(over - margin, exact.S_squared) and root_at_most(exact.S_squared, over + margin))


# ---------------------------------------------------------------- buffers, print

def buffers(rounded):
    """"Factors and rates go lower, upper, term by term, into entries 0 to 239"."""
    in_row = lambda brackets: [end for bracket in brackets[1:] for end in bracket]
    return in_row(rounded.factors), in_row(rounded.zero_rates)


def fill(data, factors, rates):
    """Value a file into lent buffers; the refusal if there is one, 13 before all others.

    "A refusal ... changes nothing lent"; "later entries keep their content".
    """
    if len(factors) < 240 or len(rates) < 240:
        return Refusal(13)
    case = read(data)
    if isinstance(case, Refusal):
        return case
    factors[:240], rates[:240] = buffers(Rounded(case))
    return None


def listing(data: bytes) -> bytes:
    """"one line each, name, lower, upper ...; then V and the verdict"; or "R and its number"."""
    case = read(data)
    if isinstance(case, Refusal):
        return b"R %d\n" % case.number
    rounded = Rounded(case)
    lines = [b"%s %d %d\n" % (name.encode(), *getattr(rounded, name)) for name in MONEY]
    return b"".join(lines) + b"V %s\n" % rounded.verdict.encode()


def main(path):
    if path == "-":
        data = sys.stdin.buffer.read()
    else:
        with open(path, "rb") as file:
            data = file.read()
    sys.stdout.buffer.write(listing(data))


if __name__ == "__main__":
    if len(sys.argv) != 2:
        sys.exit("usage: python3 -m tests.reference.reference FILE   (- reads standard input)")
    main(sys.argv[1])
