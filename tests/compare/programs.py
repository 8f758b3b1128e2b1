"""The programs `answers` and `searches`, which take many files at once, and what the reference says they write of each.

Their input (crates/batch): the files one after the other, each behind its length in four bytes. Of each file `answers`
writes three answers: the reading, the listing, and both lent buffers. `searches` writes of each search for a zero rate
the steps left after each test, a search a line, or the refusal.
"""

import os
import re
import subprocess
from types import SimpleNamespace
from typing import NamedTuple

from tests import ROOT
from tests.reference import reference
from tests.reference.reference import ENDS, MONEY, STEPS, TESTS, Refusal, StepsLeft, allowed_width

# ---------------------------------------------------------------- what the programs write

class Answers(NamedTuple):
    """The three answers of one file, as the program writes them; None stands for one that is not compared."""
    reading: bytes | None = None
    listing: bytes | None = None
    buffers: bytes | None = None


class Search(NamedTuple):
    """The search for one of the two rates of a term, as `searches` writes it."""
    end: int
    term: int
    left: list  # the StepsLeft after 0, 1, .. 15 tests


WRITTEN = re.compile(rb"([RC] .*\n)" rb"(R \d+\n|(?:[LBAS]\d? \d+ \d+\n)+V [A-Z ]+\n)" rb"(F .*\nZ .*\n)")
NUMBER = "(?:0|[1-9][0-9]*)"
SEARCH = f"{NUMBER}(?: {NUMBER}){{{2 * (TESTS + 1)}}}\n"  # the term, then first and last after each test
SEARCHED = re.compile(f"R {NUMBER}\n|(?:L {SEARCH}U {SEARCH}){{120}}".encode())
LETTERS = "LU"  # by the end


def program(name):
    path = os.path.join(ROOT, "crates", name, "out", name)
    if not os.path.exists(path):
        raise SystemExit(f"crates/{name}/out/{name} is missing: call rt run in crates/{name}, or rt ci")
    return path


def framed(files):
    return b"".join(len(data).to_bytes(4, "big") + data for data in files)


def unframed(text):
    """The files of such an input."""
    files, at = [], 0
    while at < len(text):
        start, end = at + 4, at + 4 + int.from_bytes(text[at:at + 4], "big")
        files.append(text[start:end])
        at = end
    return files


def output(name, files):
    """What a program writes of these files, all of one run."""
    return subprocess.run([program(name)], input=framed(files), capture_output=True, check=True).stdout


def cut(pattern, text, count):
    """The text of each of this many files; all of it must be theirs."""
    found = list(pattern.finditer(text))
    if sum(len(match.group()) for match in found) != len(text) or len(found) != count:
        raise SystemExit(f"the program answered {len(found)} of {count} files, or wrote something else")
    return found


def answers_in(text, count):
    return [Answers(*match.groups()) for match in cut(WRITTEN, text, count)]


def answers(files):
    """The answers of each file."""
    return answers_in(output("answers", files), len(files))


def search_in(line):
    letter, term, *numbers = line.split()
    steps = [int(number) for number in numbers]
    return Search(LETTERS.index(letter), int(term), [StepsLeft(*pair) for pair in zip(steps[::2], steps[1::2])])


def file_searches(text):
    """The searches in what is written of one file, or its refusal."""
    lines = text.decode().splitlines()
    if lines[0].startswith("R"):
        return Refusal(int(lines[0].split()[1]))
    found = [search_in(line) for line in lines]
    if [search.term for search in found] != [t for t in range(1, 121) for _ in ENDS]:
        raise SystemExit("the searches of a file are not those of the terms 1 to 120")
    return found


def searches_in(text, count):
    return [file_searches(match.group()) for match in cut(SEARCHED, text, count)]


def searches(files):
    """Of each file its 240 searches in the order in which they are written, or its refusal."""
    return searches_in(output("searches", files), len(files))


def compared(found, expected):
    """Of the answers found those that are compared: the others are None, as in what is expected."""
    return Answers(*(None if right is None else answer for answer, right in zip(found, expected)))


# ---------------------------------------------------------------- what the reference says

# What the last line of a listing can be.
OUTCOMES = [f"R {number}" for number in range(1, 13)] + [f"V {word}" for word in reference.VERDICTS]


def outcome(listing):
    return listing.splitlines()[-1].decode()


def hash_of(part):
    """A number that tells parts of the same length apart."""
    total = 0
    for byte in part:
        total = total % 1_000_003 * 257 + byte
    return total


def fields(case):
    """The fields of a case in the order of the engine's struct, its arrays filled up with 0."""
    padded = lambda flows, length: flows + [0] * (length - len(flows))
    return [case.ufr, case.per_step, *reference.points(case)[1][1:], len(case.pension), *padded(case.pension, 120),
            len(case.bonds), *padded(case.bonds, 60), *case.amounts.values(), *case.shocks.values(),
            case.heads, case.pension_age, case.mean_age]


def row(words):
    return " ".join(map(str, words)).encode() + b"\n"


def reading(data):
    answer, (offset, length) = reference.read_with_part(data)
    said = ["R", answer.number] if isinstance(answer, Refusal) else ["C", *fields(answer)]
    return row([*said, offset, length, hash_of(data[offset:offset + length])])


def buffers(data):
    """Both buffers of 242 entries, all 7 beforehand; 100,000 steps are added to each zero rate."""
    factors, rates = [7] * 242, [7] * 242
    reference.fill(data, factors, rates)
    return row(["F", *factors]) + row(["Z", *(STEPS + rate for rate in rates)])


def expected(data):
    return Answers(reading(data), reference.listing(data), buffers(data))


# Both buffers as they were: those of a file of no bytes, which is refused.
UNTOUCHED = buffers(b"")


def refused(number):
    """All that is written of a refused file: its number, no part that holds rates, and buffers that keep their content."""
    return Answers(row(["R", number, 0, 0, 0]), row(["R", number]), UNTOUCHED)


def expected_searches(data):
    """What `searches` is to find of a file."""
    case = reference.read(data)
    if isinstance(case, Refusal):
        return case
    factors = reference.rounded_factors(case)
    return [Search(end, t, reference.steps_left(factors[t], t, end)) for t in range(1, 121) for end in ENDS]


def written_searches(answer):
    """The text that `searches` is to write of it."""
    if isinstance(answer, Refusal):
        return row(["R", answer.number])
    return b"".join(row([LETTERS[end], t, *(step for pair in left for step in pair)]) for end, t, left in answer)


# ---------------------------------------------------------------- what the engine printed

def brackets(numbers):
    """Pairs of numbers at the places 1, 2, ..."""
    return [None] + list(zip(numbers[::2], numbers[1::2]))


def money_in(listing):
    """The figures of a listing; none of a refused file."""
    if listing.startswith(b"R"):
        return {}
    return {name: (int(lower), int(upper)) for name, lower, upper in map(str.split, listing.decode().splitlines()[:-1])}


def engine_figures(case, answer):
    """What the engine printed, in the shape of the reference's Rounded."""
    figures, verdict = money_in(answer.listing), outcome(answer.listing)
    factors, rates = ([int(word) for word in line.split()[1:]] for line in answer.buffers.splitlines())
    return SimpleNamespace(**{name: figures[name] for name in MONEY}, verdict=verdict.removeprefix("V "),
                           factors=brackets(factors[:240]),
                           zero_rates=brackets([rate - STEPS for rate in rates[:240]]),
                           WL=allowed_width(case.pension), WB=allowed_width(case.bonds))
