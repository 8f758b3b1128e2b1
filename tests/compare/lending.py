"""What the comparisons over the shared library share: the library that hosts/build makes, with the structs and functions of
include/ginghamowl.h, through ctypes; calls with lent buffers, what the reference answers to them, and what was seen and what differs.
"""

import ctypes
import os
import reprlib
import sys
from collections import Counter
from ctypes import Structure, c_char_p, c_int16, c_int32, c_int64, c_size_t, c_uint8, c_uint64
from types import SimpleNamespace
from typing import NamedTuple

from tests import ROOT
from tests.reference.reference import AMOUNTS, MONEY, SHOCKS, VERDICTS, Given
from tests.reference.rolling import RATES, TERMS

LIBRARY = "hosts/target/libginghamowl.so"
GUARD = 4  # this many entries on each side of a lent buffer are compared with it
SHOWN = 5  # this many differences of a kind are printed


# ---------------------------------------------------------------- structs

class HostAmounts(Structure):
    _fields_ = [(name, c_uint64) for name in AMOUNTS]


class HostShocks(Structure):
    _fields_ = [(name, c_uint64) for name in SHOCKS]


class HostPeople(Structure):
    _fields_ = [(name, c_uint64) for name in ("heads", "pension_age", "mean_age")]


class HostFields(Structure):
    _fields_ = [("rate_bytes", c_uint64), ("ufr", c_uint64), ("amounts", HostAmounts), ("shocks", HostShocks), ("people", HostPeople)]


class HostSaved(Structure):
    _fields_ = [("refusal", c_uint8), ("written", c_size_t)]


class HostPart(Structure):
    _fields_ = [("offset", c_size_t), ("length", c_size_t)]


class HostValuation(Structure):
    _fields_ = [("refusal", c_uint8), ("verdict", c_uint8), ("figures", c_uint64 * 20)]


class HostWindow(Structure):
    _fields_ = [("count", c_uint64), ("start", c_uint64), ("rates", c_int16 * RATES), ("sums", c_int64 * TERMS)]


class HostDay(Structure):
    _fields_ = [("rates", c_int32 * TERMS)]


class HostChanged(Structure):
    _fields_ = [("refusal", c_uint8), ("window", HostWindow)]


class HostUfr(Structure):
    _fields_ = [("refusal", c_uint8), ("ufr", c_uint64)]


# ---------------------------------------------------------------- functions

def lent(kind):
    return ctypes.POINTER(kind), c_size_t


FILE = c_char_p, c_size_t
CASE = HostFields, *lent(c_int32), *lent(c_uint64), *lent(c_uint64)
BUFFERS = *lent(c_uint64), *lent(c_int64)
HISTORY = *lent(c_uint8), c_uint64  # with its start index
FUNCTIONS = {  # by name: the result, then the arguments
    "value": (HostValuation, *FILE, *BUFFERS),
    "refusal": (c_uint8, *FILE),
    "rates_part": (HostPart, *FILE),
    "save": (HostSaved, *CASE, *lent(c_uint8)),
    "rolling_empty": (HostWindow,),
    "rolling_add": (HostChanged, HostWindow, HostDay),
    "rolling_drop": (HostChanged, HostWindow),
    "rolling_value": (HostValuation, HostWindow, *CASE, *BUFFERS),
    "ufr_of": (HostUfr, *HISTORY),
    "value_with_months": (HostValuation, *lent(c_uint8), *HISTORY, *BUFFERS),
}


def loaded(*names):
    """These functions of the shared library."""
    path = os.path.join(ROOT, LIBRARY)
    if not os.path.exists(path):
        sys.exit(f"{LIBRARY} is missing: hosts/build makes it")
    library, engine = ctypes.CDLL(path), SimpleNamespace()
    for name in names:
        if not hasattr(library, f"ginghamowl_{name}"):
            sys.exit(f"{LIBRARY} is an old one, without ginghamowl_{name}: hosts/build makes it")
        function = getattr(library, f"ginghamowl_{name}")
        function.restype, *function.argtypes = FUNCTIONS[name]
        setattr(engine, name, function)
    return engine


# ---------------------------------------------------------------- a case that is handed in

def fields_of(given):
    return HostFields(given.rate_bytes, given.ufr, HostAmounts(**given.amounts), HostShocks(**given.shocks),
                      HostPeople(given.heads, given.pension_age, given.mean_age))


class HandedIn:
    """A case as the arguments of a call."""

    def __init__(self, given):
        self.lists = [(kind * len(values))(*values) for kind, values in (
            (c_int32, given.rates), (c_uint64, given.pension), (c_uint64, given.bonds))]
        self.before = self.content()
        lists = [argument for one in self.lists for argument in (one or None, len(one))]  # NULL where the length is 0
        self.arguments = fields_of(given), *lists

    def content(self):
        return [bytes(one) for one in self.lists]

    def kept(self):
        """Whether the lists are as before."""
        return self.content() == self.before


def given_from(fields, rates, rates_length, pension, pension_length, bonds, bonds_length):
    """The case again, from such arguments."""
    numbers = lambda record: {name: getattr(record, name) for name, _ in record._fields_}
    return Given(fields.ufr, *(list(one or []) for one in (rates, pension, bonds)), numbers(fields.amounts), numbers(fields.shocks),
                 **numbers(fields.people), rate_bytes=fields.rate_bytes)


def shown(given):
    """A case with its lists cut short, and their lengths."""
    short = reprlib.Repr()
    short.maxdict = len(SHOCKS)
    length = lambda value: f" ({len(value)})" if isinstance(value, list) else ""
    return ", ".join(f"{name} {short.repr(value)}{length(value)}" for name, value in vars(given).items())


# ---------------------------------------------------------------- valuations with lent buffers

class Answer(NamedTuple):
    """All that a valuation answers, and both buffers with what is around them."""
    refusal: int
    verdict: int
    figures: list
    factors: list
    rates: list


def into_buffers(call, memories):
    """Calls with both buffers, of whose memories GUARD entries at each end are not lent."""
    whole = [(kind * len(memory))(*memory) for kind, memory in zip((c_uint64, c_int64), memories)]
    lent = [(one._type_ * (len(one) - 2 * GUARD)).from_buffer(one, 8 * GUARD) for one in whole]
    valuation = call(*(argument for one in lent for argument in (one, len(one))))
    return Answer(valuation.refusal, valuation.verdict, [*valuation.figures], *map(list, whole))


def value_file(engine, data, memories):
    return into_buffers(lambda *buffers: engine.value(data, len(data), *buffers), memories)


def expected_answer(value, memories):
    """What value, the reference's, answers where it is called with both buffers."""
    refusal, rounded, *after = value(*(memory[GUARD:-GUARD] for memory in memories))
    verdict = VERDICTS.index(rounded.verdict) + 1 if rounded else 0
    figures = [end for name in MONEY for end in getattr(rounded, name)] if rounded else [0] * 20
    return Answer(refusal, verdict, figures, *(memory[:GUARD] + lent + memory[-GUARD:] for memory, lent in zip(memories, after)))


# ---------------------------------------------------------------- differences

def places(found, expected):
    """How many numbers are others, and the first of them."""
    other = [(at, one, right) for at, (one, right) in enumerate(zip(found, expected)) if one != right]
    return f"{len(other)} differ, the first at place {other[0][0]}: {other[0][1]}, not {other[0][2]}"


def answer_difference(found, expected):
    parts = [f"refusal {found.refusal}, not {expected.refusal}" if found.refusal != expected.refusal else f"refusal {found.refusal}"]
    for name in Answer._fields[1:]:
        one, right = getattr(found, name), getattr(expected, name)
        if one != right:
            parts.append(f"verdict {one}, not {right}" if name == "verdict" else f"{name}: {places(one, right)}")
    return ", ".join(parts)


class Counting:
    """Counts what was seen and what differs."""

    def __init__(self, engine, rng, refusals):
        self.engine, self.rng, self.refusals = engine, rng, refusals
        self.seen, self.different = Counter(), 0

    def memories(self, lengths):
        """What is in the buffers beforehand, and around them: any numbers, signed for the rates."""
        return [[self.rng.getrandbits(64) + least for _ in range(length + 2 * GUARD)] for least, length in zip((0, -(1 << 63)), lengths)]

    def compare(self, kind, trials, faults_of, show):
        """trials of one kind, what is wrong with one of them, and how to show it."""
        count = wrong = 0
        for count, trial in enumerate(trials, 1):
            faults = list(faults_of(trial))
            wrong += bool(faults)
            if faults and wrong <= SHOWN:
                print(f"DIFFERENT, {kind}, {show(trial)}: {'; '.join(faults)}")
        self.different += wrong
        print(f"{kind}: {count}, {wrong} different", flush=True)

    def passed(self):
        """Whether nothing differs, and every refusal was seen."""
        return not self.different and all(self.seen[number] for number in self.refusals)
