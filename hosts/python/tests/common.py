"""What the tests of several features need: files and cases beside the reference in tests/, and what a call answers."""

import random
import sys
from dataclasses import replace
from itertools import cycle
from pathlib import Path

HERE = Path(__file__).resolve()
sys.path[:0] = [str(HERE.parents[1]), str(HERE.parents[3])]
from ginghamowl import Amounts, Case, DaysForm, People, Refused, Shocks
from tests.inputs import examples, files
from tests.reference import reference

C1_FILE = reference.encode(examples.c1(), False, False, True)
BOTH_FORMS = 2, 4  # the bytes of a rate
STORED = sorted((HERE.parents[3] / "cases").glob("*.case"))


def seeded_files(seed, count, forms=BOTH_FORMS):
    """Files that are accepted, with the cases that they hold; their days have these forms in turn."""
    rng = random.Random(seed)
    for _, rate_bytes in zip(range(count), cycle(forms)):
        case = examples.random_case(rng, rate_bytes=rate_bytes)
        yield reference.encode(case, *examples.presence(rng, case)), case


def damaged_files(seed, count):
    """Files of either form with a few bytes changed, cut or added. The first five bytes and the last are hit more often."""
    rng = random.Random(seed)
    good = [C1_FILE, files.rewritten(C1_FILE), files.all_fields(3, 2), files.all_fields(3, 4),
            *(data for data, _ in seeded_files(seed, 4))]
    for _ in range(count):
        data = bytearray(rng.choice(good))
        for _ in range(rng.randint(0, 2)):
            at = rng.choice([rng.randrange(len(data)), rng.randrange(5), len(data) - 1])
            data[at] = rng.choice([0, 1, 127, 128, 255, rng.randrange(256)])
        yield bytes(data[:rng.choice([None, None, None, rng.randrange(len(data))])]) + bytes(rng.choice([0, 0, 0, 1]))


def case_of(held):
    """The package's case of a case of the reference, whose amounts and shocks are in the same order."""
    return Case(held.ufr, held.days, held.pension, held.bonds, Amounts(*held.amounts.values()), Shocks(*held.shocks.values()),
                People(held.heads, held.pension_age, held.mean_age), DaysForm(held.rate_bytes))


def shortest(held):
    """The shortest file of a case of the reference."""
    return reference.encode(held, held.ufr != 4_200, bool(held.bonds), any(held.amounts.values()))


def with_field(case, record, **changes):
    """The case with numbers of its amounts, shocks or people changed."""
    return replace(case, **{record: replace(getattr(case, record), **changes)})


def refused_with(case):
    """The number that saving is refused with; 0 where it is not."""
    try:
        case.save()
    except Refused as refused:
        return refused.number
    return 0


def faults_in_order(case):
    """A refusal, and the changes that bring the case to it, in the order of the checks."""
    most = 10_000 * reference.UNITS[case.days_form]
    days = [(4, {"days": [[2 * most] * 59, [2 * most] * 61]}), (5, {"days": [[0] * 58 + [most, -2 ** 40]]})]
    others = [(7, {"pension": [2 ** 64] * 121}), (8, {"pension": [-1]}), (7, {"bonds": [-1] * 61}), (8, {"bonds": [2 ** 64]}),
              (10, {"amounts": replace(case.amounts, currency=-1)}), (11, {"shocks": replace(case.shocks, duration=2 ** 64)}),
              (12, {"people": replace(case.people, heads=0)})]
    in_bit_order = days + others if case.days_form is DaysForm.TWO_BYTES else others + days
    equity = 11, {"shocks": replace(case.shocks, equity_correlation=1_001)}
    return [(9, {"ufr": -1}), *in_bit_order, equity, (6, {"days": [[0] * 59 + [most]]})]


def answer_of(function, *arguments):
    """What a call answers: a valuation, or the number of its refusal."""
    try:
        return function(*arguments)
    except Refused as refused:
        return refused.number


C1 = case_of(examples.c1())
UP = case_of(examples.up())
UP_FOUR = case_of(files.finer_case(examples.up()))  # the rates use all seven decimals
