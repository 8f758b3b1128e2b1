"""tests/compare/save.py passes an engine that saves as the reference does, and reports each that does not."""

import contextlib
import ctypes
import io
import random
import unittest
from dataclasses import replace
from unittest import mock

from tests.compare import save as compare_save
from tests.compare.lending import HostFields, HostPart, HostSaved, HostValuation, given_from
from tests.compare.save import GUARD, Comparison
from tests.inputs import files, host_cases, to_save
from tests.reference import reference
from tests.reference.reference import Refusal, Saved, encode


class Fake:
    """The engine's functions over the reference, with another way to save."""

    def __init__(self, saving):
        self.saving = saving

    def save(self, *arguments):
        *case, out, out_length = arguments
        refusal, written, after = self.saving(given_from(*case), bytes(out))
        ctypes.memmove(ctypes.addressof(out), after, min(len(after), out_length + GUARD))
        return HostSaved(refusal, written)

    def refusal(self, data, length):
        case = reference.read(data)
        return case.number if isinstance(case, Refusal) else 0

    def rates_part(self, data, length):
        return HostPart(*reference.rates_part(data))

    def value(self, data, length, factors, factors_length, rates, rates_length):
        """No valuation, but another answer for each case."""
        return HostValuation(0, 1, (ctypes.c_uint64 * 20)(hash(str(reference.read(data))) % (1 << 64)))


# ---------------------------------------------------------------- wrong ways to save

def writing(bytes_of, room=0):
    """Saves these bytes of a case, and asks for a buffer that is so much longer."""
    def saving(given, held):
        number = reference.case_refusal(given)
        data = b"" if number else bytes_of(given)
        if not number and len(held) < len(data) + room:
            number = 14
        return Saved(number, 0, held) if number else Saved(0, len(data), data + held[len(data):])
    return saving


def with_fields(needed):
    """The bytes of a case with these of the optional fields."""
    return lambda given: encode(reference.case_of(given), *needed(given))


def every_field(given):
    return True, bool(given.bonds), True, True


def equity_always(given):
    """The equity correlation is written where it is 1,000 too."""
    return *reference.needed_fields(given)[:3], True


def no_empty_looking_bonds(given):
    given = given if any(given.bonds) else replace(given, bonds=[])
    return reference.shortest(given)


def reversed_days(given):
    days = reference.in_days(given.rates)[::-1]
    return reference.shortest(replace(given, rates=[rate for day in days for rate in day]))


def little_endian_shocks(given):
    """Of two-byte days, where the shocks stand ahead of the people."""
    data = reference.shortest(given)
    if given.rate_bytes == 4:
        return data
    end = len(data) - 8 - 2 * reference.needed_fields(given)[3]
    pairs = [data[at:at + 2][::-1] for at in range(end - 24, end, 2)]
    return data[:end - 24] + b"".join(pairs) + data[end:]


def with_equity(given, value):
    return replace(given, shocks=given.shocks | {"equity_correlation": value})


def equity_in_front_of_the_people(given):
    """The equity correlation stands behind the other shocks, in files whose days have two bytes."""
    data = reference.shortest(given)
    stands = given.rate_bytes == 2 and reference.needed_fields(given)[3]
    return data[:-10] + data[-2:] + data[-10:-2] if stands else data


def equity_in_front_of_the_days(given):
    """The equity correlation stands behind the people, ahead of four-byte days."""
    data, length = reference.shortest(given), 1 + 4 * len(given.rates)
    stands = given.rate_bytes == 4 and reference.needed_fields(given)[3]
    return data[:-length - 2] + data[-2:] + data[-length - 2:-2] if stands else data


def no_equity_of_999(given):
    """999 is taken for 1,000."""
    equity = given.shocks["equity_correlation"]
    return reference.shortest(with_equity(given, 1_000 if equity == 999 else equity))


def wiped(given, held):
    """What is past the written bytes is lost."""
    saved = reference.save(given, held)
    return saved if saved.refusal else saved._replace(after=saved.after[:saved.written].ljust(len(held), b"\0"))


def byte_on_refusal(given, held):
    saved = reference.save(given, held)
    return saved._replace(after=bytes([held[0] ^ 1]) + held[1:]) if saved.refusal and held else saved


def count_on_refusal(given, held):
    saved = reference.save(given, held)
    return saved._replace(written=1) if saved.refusal else saved


def one_byte_past(given, held):
    """Writes a byte behind the lent ones."""
    saved = reference.save(given, held)
    return saved._replace(after=saved.after + b"?")


def early_14(given, held):
    """14 ahead of the case's own number."""
    return Saved(14, 0, held) if len(held) < 160 else reference.save(given, held)


def six_before_eleven(given, held):
    """6 ahead of 11 of the equity correlation."""
    return Saved(6, 0, held) if reference.case_refusal(with_equity(given, 0)) == 6 else reference.save(given, held)


def eleven_before_twelve(given, held):
    """The equity correlation is checked with the other shocks, ahead of the people."""
    late = given.shocks["equity_correlation"] > 1_000 and reference.case_refusal(given) == 12
    return Saved(11, 0, held) if late else reference.save(given, held)


def eleven_before_the_days(given, held):
    """The equity correlation is checked behind the people, ahead of four-byte days."""
    late = given.rate_bytes == 4 and given.shocks["equity_correlation"] > 1_000 and reference.case_refusal(given) in (4, 5)
    return Saved(11, 0, held) if late else reference.save(given, held)


def equity_of_sixteen_bits(given, held):
    """The equity correlation without its upper bytes."""
    return reference.save(with_equity(given, given.shocks["equity_correlation"] % (1 << 16)), held)


def equity_up_to(most):
    """Another limit of the equity correlation."""
    def saving(given, held):
        with mock.patch.dict(reference.SHOCK_LIMITS, equity_correlation=most):
            return reference.save(given, held)
    return saving


def rates_by_whole_days(given, held):
    """Rates that are left over are dropped."""
    return reference.save(replace(given, rates=given.rates[:len(given.rates) // 60 * 60]), held)


def sixteen_bits(given, held):
    """The UFR without its upper bytes."""
    return reference.save(replace(given, ufr=given.ufr % (1 << 16)), held)


# Of rates in four bytes.

def two_bytes_kept(given):
    """Rates of four bytes are rounded to steps, and written as two."""
    rates = [rate // 100 for rate in given.rates] if given.rate_bytes == 4 else given.rates
    return reference.shortest(replace(given, rates=rates, rate_bytes=2))


def shortest_days(given):
    """Four-byte days whose rates are whole steps are written as two-byte days, which is shorter."""
    whole = given.rate_bytes == 4 and not any(rate % 100 for rate in given.rates)
    return two_bytes_kept(given) if whole else reference.shortest(given)


def days_in_front(given):
    """The four-byte days stand behind the map, or the UFR, as the two-byte ones do."""
    data = reference.shortest(given)
    if given.rate_bytes == 2:
        return data
    front, length = 4 if data[1] & 1 else 2, 1 + 4 * len(given.rates)
    at = len(data) - length - 2 * reference.needed_fields(given)[3]
    return data[:front] + data[at:at + length] + data[front:at] + data[at + length:]


def bit_1_kept(given):
    data = reference.shortest(given)
    return data if given.rate_bytes == 2 else data[:1] + bytes([data[1] ^ 0x82]) + data[2:]


def little_endian_rates(given):
    data = reference.shortest(given)
    if given.rate_bytes == 2:
        return data
    end = len(data) - 2 * reference.needed_fields(given)[3]
    at = end - 4 * len(given.rates)
    return data[:at] + b"".join(data[place:place + 4][::-1] for place in range(at, end, 4)) + data[end:]


def taking(change):
    """Another case is taken for the one handed in, before it is looked at."""
    return lambda given, held: reference.save(change(given), held)


def any_number_of_bytes(given):
    return given if given.rate_bytes in reference.UNITS else replace(given, rate_bytes=2)


def lower_byte(given):
    return replace(given, rate_bytes=given.rate_bytes % 256)


def at_least_two(given):
    """Any number from 2 to 4 is let pass."""
    return replace(given, rate_bytes=4) if given.rate_bytes == 3 else given


def three_after_nine(given, held):
    late = reference.case_refusal(given) == 3 and reference.case_refusal(replace(given, rate_bytes=2)) == 9
    return Saved(9, 0, held) if late else reference.save(given, held)


def days_before_the_flows(given, held):
    """4 and 5 of four-byte days in the place of those of two-byte days."""
    others = reference.case_refusal(given)
    alone = reference.case_refusal(replace(host_cases.SMALL_FOUR, rates=given.rates))
    early = given.rate_bytes == 4 and others in (7, 8, 10, 11, 12) and alone in (4, 5)
    return Saved(alone, 0, held) if early else reference.save(given, held)


def limits_of_two_bytes(given, held):
    """5 and 6 in steps, of four-byte rates too."""
    if given.rate_bytes == 4 and reference.case_refusal(given) in (0, 6):
        number = reference.case_refusal(replace(given, rate_bytes=2))
        return Saved(number, 0, held) if number else reference.save(given, held)
    return reference.save(given, held)


OF_FOUR_BYTES = [*map(writing, (two_bytes_kept, shortest_days, days_in_front, bit_1_kept, little_endian_rates)),
                 *map(taking, (any_number_of_bytes, lower_byte, at_least_two)), three_after_nine, days_before_the_flows, limits_of_two_bytes]

OF_EQUITY = [writing(with_fields(equity_always)),
             *map(writing, (equity_in_front_of_the_people, equity_in_front_of_the_days, no_equity_of_999)),
             six_before_eleven, eleven_before_twelve, eleven_before_the_days, equity_of_sixteen_bits,
             equity_up_to(999), equity_up_to(1_001)]

WRONG = [*OF_FOUR_BYTES, *OF_EQUITY, writing(reference.shortest, room=1), writing(reference.shortest, room=-1),
         writing(with_fields(every_field)), writing(no_empty_looking_bonds), writing(reversed_days), writing(little_endian_shocks), wiped,
         byte_on_refusal, count_on_refusal, one_byte_past, early_14, rates_by_whole_days, sixteen_bits]


# ---------------------------------------------------------------- what is reported

def compared(engine):
    """A short comparison, and what it prints."""
    rng, printed = random.Random(1), io.StringIO()
    comparison = Comparison(engine, rng)
    with contextlib.redirect_stdout(printed):
        for small in (host_cases.SMALL, host_cases.SMALL_FOUR):
            rich = reference.given_of(reference.read(files.all_fields(3, small.rate_bytes)))
            comparison.compare("rows", compare_save.roomy(rng, [rich, *compare_save.rows(small.rate_bytes)]))
            comparison.compare("rooms", compare_save.some_rooms(rng, small, 5))
            comparison.compare("faults", compare_save.one_fault(small))
            comparison.compare("numbers", compare_save.roomy(rng, to_save.one_number(small)))
    return comparison, printed.getvalue()


class Reported(unittest.TestCase):
    def test_right(self):
        for saving in (reference.save, writing(reference.shortest), writing(with_fields(reference.needed_fields))):
            comparison, printed = compared(Fake(saving))
            self.assertEqual(comparison.different, 0, printed)
            self.assertEqual(set(comparison.seen), {0, *compare_save.REFUSALS})

    def test_wrong(self):
        for saving in WRONG:
            comparison, printed = compared(Fake(saving))
            self.assertGreater(comparison.different, 0, saving)
            self.assertIn("DIFFERENT", printed)

    def test_size(self):
        """That of the struct in C: the number of bytes of a rate, the UFR, 8 amounts, 13 shocks, 3 numbers of people."""
        self.assertEqual(ctypes.sizeof(HostFields), 8 * 26)
        self.assertEqual(HostFields.rate_bytes.offset, 0)

    def test_changed_list(self):
        class Changing(Fake):
            def save(self, fields, rates, rates_length, *others):
                answer = super().save(fields, rates, rates_length, *others)
                if rates:
                    rates[0] += 1
                return answer
        self.assertIn("handed in is changed", compared(Changing(reference.save))[1])

    def test_other_answers(self):
        """Engines that save rightly, and that read or value what is saved otherwise."""
        for name, answer, fault in (("refusal", lambda *file: 1, "refuses the saved file"),
                                    ("rates_part", lambda *file: HostPart(0, 0), "other rates"),
                                    ("value", lambda data, *_: HostValuation(0, 1, (ctypes.c_uint64 * 20)(len(data))), "valued otherwise")):
            engine = Fake(reference.save)
            setattr(engine, name, answer)
            self.assertIn(fault, compared(engine)[1])


class Stored(unittest.TestCase):
    def test_files_in_the_tree(self):
        stored = compare_save.stored_files()
        self.assertGreater(len(stored), 90)
        for data, (given, room) in zip(stored, compare_save.resaved(), strict=True):
            self.assertEqual((reference.case_of(given), room), (reference.read(data), len(data)))


if __name__ == "__main__":
    unittest.main()
