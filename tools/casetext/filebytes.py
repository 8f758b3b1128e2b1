"""The bytes of a case file: reading them in the order of the refusals (METHOD, Refusals), and writing them.

The days are in one of two fields: with rates of two bytes after the UFR, or with rates of four after the people. Behind all of
these stands the correlation between the equity classes.
"""

from dataclasses import dataclass

from .fields import (AMOUNT_NUMBERS, DAYS_FIELDS, EQUITY_CORRELATION_NUMBER, FIELDS, FLOW_NUMBER, FORBIDDEN, MOST_BONDS, MOST_DAYS,
                     MOST_PENSION, PEOPLE_NUMBERS, REQUIRED, SHOCK_NUMBERS, TERMS, UFR_NUMBER, Case, DaysField,
                     forwards_out_of_limits)
from .units import COUNT, MONEY, Number, shown


class Fault(Exception):
    """The first rule that a file breaks: the number of the refusal, the byte, and what is wrong."""

    def __init__(self, number: int, byte: int, sentence: str) -> None:
        super().__init__(f"refused, {number}, at byte {byte}: {sentence}")
        self.number, self.byte, self.sentence = number, byte, sentence


@dataclass(frozen=True)
class Part:
    """So many bytes of a file from a byte on, and what they say."""
    byte: int
    length: int
    says: str


class Reader:
    """Reads a file from its front, in the order of the refusals, and notes each part that was read."""

    def __init__(self, data: bytes) -> None:
        self.data, self.at = data, 0
        self.rates_at = 0  # the first byte of the rates, once the days are read
        self.parts: list[Part] = []

    def need(self, length: int, field: str) -> None:
        end = self.at + length
        if end > len(self.data):
            raise Fault(1, len(self.data), f"the file ends here, but its {field} would end with byte {end - 1}; "
                                           "the map, and each field that it announces, must be whole")

    def take(self, length: int, signed: bool = False) -> int:
        self.at += length
        return int.from_bytes(self.data[self.at - length:self.at], "big", signed=signed)

    def note(self, byte: int, says: str) -> None:
        self.parts.append(Part(byte, self.at - byte, says))

    def map(self) -> set[int]:
        self.need(2, "map")
        bits = self.take(2)
        standing = {bit for bit in range(16) if bits >> bit & 1}
        for bit in range(16):
            byte = 1 if bit < 8 else 0  # big-endian: the low bits stand in the second byte
            if bit in REQUIRED and bit not in standing:
                raise Fault(3, byte, f"bit {bit} of the map, {FIELDS[bit]}, is missing; bits 2, 5 and 6 must stand")
            if bit in FORBIDDEN and bit in standing:
                raise Fault(3, byte, f"bit {bit} of the map stands; bits 9 to 15 must not")
        if (1 in standing) == (7 in standing):
            which = "both stand" if 1 in standing else "are both missing"
            raise Fault(3, 1, f"bits 1 and 7 of the map, {FIELDS[1]} and {FIELDS[7]}, {which}; exactly one of them must stand")
        self.note(0, f"map 0x{bits:04x}: {', '.join(FIELDS[bit] for bit in sorted(standing))}")
        return standing

    def count(self, field: str, most: int, number: int) -> int:
        self.need(1, f"count of {field}")
        count = self.take(1)
        if not 1 <= count <= most:
            raise Fault(number, self.at - 1, f"the count of {field} is {count}; it must be 1 to {most}")
        return count

    def judge(self, name: str, value: int, number: Number, refusal: int) -> None:
        """Refuses the number that was just taken where it is out of its limits."""
        if not number.least <= value <= number.most:
            raise Fault(refusal, self.at - number.length, out_of_limits(name, value, number))

    def numbers(self, field: str, numbers: list[Number], refusal: int) -> dict[str, int]:
        """A field of fixed length: whole before any of its numbers is judged."""
        self.need(sum(number.length for number in numbers), field)
        values = {}
        for number in numbers:
            byte, value = self.at, self.take(number.length)
            self.judge(number.name, value, number, refusal)
            self.note(byte, f"{number.name}: {in_file_and_words(value, number)}")
            values[number.name] = value
        return values

    def days(self, field: DaysField) -> list[list[int]]:
        start, number, name = self.at, field.rate, FIELDS[field.bit]
        count = self.count("days", MOST_DAYS, 4)
        self.need(number.length * TERMS * count, "days")
        self.note(start, f"{name}: {count}")
        self.rates_at, days = self.at, []
        for day in range(1, count + 1):
            byte, rates = self.at, []
            for term in range(1, TERMS + 1):
                rate = self.take(number.length, signed=True)
                self.judge(f"the rate of term {term} of day {day}", rate, number, 5)
                rates.append(rate)
            self.note(byte, f"day {day}, in {number.kind.own}: {spaced(rates)}")
            days.append(rates)
        return days

    def flows(self, field: str, most: int) -> list[int]:
        start = self.at
        count = self.count(field, most, 7)
        self.need(FLOW_NUMBER.length * count, field)
        self.note(start, f"{field}: {count}")
        start, flows = self.at, []
        for term in range(1, count + 1):
            flow = self.take(FLOW_NUMBER.length)
            self.judge(f"flow {term} of the {field}", flow, FLOW_NUMBER, 8)
            flows.append(flow)
        self.note(start, f"{field} from term 1 on, in euros: {spaced(flows)}")
        return flows

    def whole_case(self) -> Case:
        standing = self.map()
        rate_bytes = 2 if 1 in standing else 4
        field = DAYS_FIELDS[rate_bytes]
        days: list[list[int]] = []
        ufr = self.numbers("UFR", [UFR_NUMBER], 9)["ufr"] if 0 in standing else None
        if 1 in standing:
            days = self.days(field)
        pension = self.flows("pension flows", MOST_PENSION)
        bonds = self.flows("bond flows", MOST_BONDS) if 3 in standing else None
        amounts = self.numbers("amounts", AMOUNT_NUMBERS, 10) if 4 in standing else None
        shocks = self.numbers("shocks", SHOCK_NUMBERS, 11)
        people = self.numbers("people", PEOPLE_NUMBERS, 12)
        if 7 in standing:
            days = self.days(field)
        correlation = self.numbers("equity correlation", [EQUITY_CORRELATION_NUMBER], 11)["equity_correlation"] if 8 in standing else None
        if self.at != len(self.data):
            raise Fault(2, self.at, f"{len(self.data) - self.at:,} bytes follow the last field; the file must end here")
        for forward in forwards_out_of_limits(days, field):  # the first one refuses
            raise Fault(6, self.rates_at + rate_bytes * (forward.term - 1), str(forward))
        return Case(rate_bytes, ufr, days, pension, bonds, amounts, shocks, people, correlation)


def in_file_and_words(value: int, number: Number) -> str:
    """A number in the file's own unit, and as people say it where that is another unit."""
    own = f"{value:,} {number.kind.own}".rstrip()
    return own if number.kind in (COUNT, MONEY) else f"{own}, {shown(value, number.kind)}"


def out_of_limits(name: str, value: int, number: Number) -> str:
    limits = f"{number.least:,} to {number.most:,} {number.kind.own}".rstrip()
    return f"{name} is {in_file_and_words(value, number)}; it must be {limits}"


def spaced(numbers: list[int]) -> str:
    return " ".join(map(str, numbers))


def read(data: bytes) -> Case:
    """The case that a file holds; raises Fault."""
    return Reader(data).whole_case()


def refusal(data: bytes) -> int:
    """The number of a file's refusal, 1 to 12; 0 where it is accepted."""
    try:
        read(data)
    except Fault as fault:
        return fault.number
    return 0


def write(case: Case) -> bytes:
    """The file of a case; raises Fault where the file would be refused."""
    data = bytes_of(case)
    read(data)
    return data


def bytes_of(case: Case) -> bytes:
    """The bytes of a case, also of one that is refused. Each number fits its bytes."""
    fields = {0: optional_bytes(case.ufr, UFR_NUMBER), 2: flow_bytes(case.pension),
              3: None if case.bonds is None else flow_bytes(case.bonds), 4: record_bytes(case.amounts, AMOUNT_NUMBERS),
              5: record_bytes(case.shocks, SHOCK_NUMBERS), 6: record_bytes(case.people, PEOPLE_NUMBERS),
              case.days_field.bit: days_bytes(case.days, case.days_field),
              8: optional_bytes(case.equity_correlation, EQUITY_CORRELATION_NUMBER)}
    held = {bit: field for bit, field in sorted(fields.items()) if field is not None}
    return sum(1 << bit for bit in held).to_bytes(2, "big") + b"".join(held.values())


def optional_bytes(value: int | None, number: Number) -> bytes | None:
    """A field of one number; None where it is absent."""
    return None if value is None else number_bytes([value], number)


def number_bytes(values: list[int], number: Number) -> bytes:
    return b"".join(value.to_bytes(number.length, "big", signed=number.least < 0) for value in values)


def days_bytes(days: list[list[int]], field: DaysField) -> bytes:
    return len(days).to_bytes(1, "big") + b"".join(number_bytes(day, field.rate) for day in days)


def flow_bytes(flows: list[int]) -> bytes:
    return len(flows).to_bytes(1, "big") + number_bytes(flows, FLOW_NUMBER)


def record_bytes(values: dict[str, int] | None, numbers: list[Number]) -> bytes | None:
    """A field of numbers with names; None where it is absent."""
    return None if values is None else b"".join(number_bytes([values[number.name]], number) for number in numbers)
