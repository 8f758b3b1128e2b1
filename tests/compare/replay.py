"""Replays a folder of files: python3 -m tests.compare.replay FOLDER

For each file the engine, through the Python package over the shared library, and the reference say the refusal; of an
accepted file also the part that holds the rates, the saved case, factors, zero rates and the listing. Ends with 1 on any
difference, or if the folder is empty.
"""

import sys
from collections import Counter
from pathlib import Path

from tests import ROOT
from tests.reference import reference

sys.path.insert(0, str(ROOT / "hosts" / "python"))
import ginghamowl

FULLY = 300  # this many accepted files of either days field are valued by the reference as well, which takes it some 20 ms each


def read_alike(data, expected):
    offset, length = reference.rates_part(data)
    if ginghamowl.refusal(data) != expected:
        return False
    return expected != 0 or ginghamowl.rates_part(data) == data[offset:offset + length]


def saved_alike(data, case):
    return ginghamowl.Case.read(data).save() == reference.shortest(reference.given_of(case))


def valued_alike(data, case):
    rounded, found = reference.Rounded(case), ginghamowl.value(data)
    pairs = lambda brackets: [(bracket.lower, bracket.upper) for bracket in brackets]
    return (pairs(found.factors) == [tuple(pair) for pair in rounded.factors[1:]]
            and pairs(found.zero_rates) == [tuple(pair) for pair in rounded.zero_rates[1:]]
            and found.listing().encode() == reference.listing(data))


def accepted_alike(data, case, valued):
    """Of a file that both accept; `valued` counts those that were valued too, by the bytes of a rate."""
    if not saved_alike(data, case):
        return False
    if valued[case.rate_bytes] == FULLY:
        return True
    valued[case.rate_bytes] += 1
    return valued_alike(data, case)


def main(folder):
    accepted, refused, valued, different = Counter(), Counter(), Counter(), 0
    for path in sorted(Path(folder).iterdir()):
        data = path.read_bytes()
        case = reference.read(data)
        if isinstance(case, reference.Refusal):
            refused[case.number] += 1
            alike = read_alike(data, case.number)
        else:
            accepted[case.rate_bytes] += 1
            alike = read_alike(data, 0) and accepted_alike(data, case, valued)
        if not alike:
            different += 1
            print(f"DIFFERENT: {path}")
    count = accepted.total() + refused.total()
    told = ", ".join(f"{accepted[length]} with rates of {length} bytes, {valued[length]} of them valued" for length in (2, 4))
    print(f"{count} files replayed, {different} different; accepted {told}; refused "
          + ", ".join(f"{number}: {refused[number]}" for number in range(1, 13)))
    sys.exit(1 if different or not count else 0)


if __name__ == "__main__":
    main(sys.argv[1])
