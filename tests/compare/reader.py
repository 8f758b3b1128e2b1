"""Runs the engine's reader beside the reference's: python3 -m tests.compare.reader [--quick]

For each file, with two-byte days or four-byte ones, both say the refusal, or every field of the case, and which part of the
file holds the rates (its place, and a hash of its bytes). Of a refused file the listing is compared too, and that the lent buffers keep
their content. Ends with 1 on any difference, or if a refusal from 1 to 12 was not seen.
"""

import random
import sys
from collections import Counter

from tests.compare import programs
from tests.compare.counting import asked
from tests.inputs import files, limits
from tests.reference.reference import UNITS, encode

SEED = 1
REFUSALS = range(1, 13)


def kinds_of(rng, quick, rate_bytes):
    """Files by kind, with this many bytes a rate."""
    small, rich, days = files.fewest_fields(rate_bytes), files.all_fields(1, rate_bytes), files.all_fields(3, rate_bytes)
    valid = files.random_files(rng, 150 if quick else 3_000, rate_bytes)
    yield "random", valid
    extreme = [files.extreme_case(rng, rate_bytes=rate_bytes) for _ in range(100 if quick else 1_000)]
    yield "ends of the limits", [files.file_of(rng, case) for case in [*files.at_forwards(rng, rate_bytes), *extreme]]
    full = [encode(files.full_case(rng, rate_bytes), True, True, True) for _ in range(5 if quick else 50)]
    yield "longest", full + [data[:rng.randrange(len(data))] for data in full for _ in range(10)]
    yield "cut", [cut for data in (small, rich, days) for cut in files.truncations(data)]
    yield "long cut", [data[:rng.randrange(len(data))] for data in valid]
    yield "bytes behind", [data + rng.randbytes(rng.randint(1, 300)) for data in valid]
    yield "one fault", [bad for data in (rich, days) for bad in files.damaged_once(data)]
    twice = list(files.damaged_twice(rng, rich))
    yield "two faults", rng.sample(twice, 1_000) if quick else twice + list(files.damaged_twice(rng, days))
    values = [0, 1, 2, 4, 8, 16, 32, 64, 127, 128, 255]
    yield "one byte", files.other_bytes(small, values if quick else range(256))
    yield "one byte, all fields", files.other_bytes(rich, [0, 255] if quick else values)


def kinds(rng, quick):
    """Those of both days fields, and files that have neither or both."""
    for rate_bytes in UNITS:
        yield from ((f"{kind}, {rate_bytes} bytes a rate", batch) for kind, batch in kinds_of(rng, quick, rate_bytes))
    yield "limits and order", limits.all_files()
    yield "maps", [bytes([high, low]) for high in (0, *(1 << bit for bit in range(8))) for low in range(256)]
    yield "long", list(files.long_files(rng))


def expected_of(data):
    """The refusal (0: accepted), and the answers: all three where the file is refused, and else its reading alone, since the
    figures take the reference too long for this many files."""
    reading = programs.reading(data)
    word, number = reading.split(maxsplit=2)[:2]
    if word == b"C":
        return 0, programs.Answers(reading)
    return int(number), programs.refused(int(number))._replace(reading=reading)


def compare(name, batch):
    """The refusals seen (0: accepted), and how many answers differ."""
    seen, different = Counter(), 0
    for data, found in zip(batch, programs.answers(batch)):
        number, expected = expected_of(data)
        found = programs.compared(found, expected)
        seen[number] += 1
        if found != expected:
            different += 1
            print(f"DIFFERENT, {name}: {data.hex()}\n  engine    {found}\n  reference {expected}")
    return seen, different


def main(quick):
    rng, seen, different = random.Random(SEED), Counter(), 0
    for name, batch in kinds(rng, quick):
        found, wrong = compare(name, batch)
        print(f"{name}: {len(batch)} files, {wrong} different")
        seen, different = seen + found, different + wrong
    print(f"{sum(seen.values())} files, {different} different; accepted {seen[0]}; refused "
          + ", ".join(f"{number}: {seen[number]}" for number in REFUSALS))
    if different or not all(seen[number] for number in REFUSALS):
        sys.exit(1)


if __name__ == "__main__":
    main(asked("--quick"))
