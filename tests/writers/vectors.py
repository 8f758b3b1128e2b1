"""Writes the input and the expected output of the programs answers and searches, all from the reference alone.

Command line: python3 -m tests.writers.vectors           writes stdin and stdout of crates/answers and of crates/searches
              python3 -m tests.writers.vectors --check   ends with 1 if one of them is another
"""

import random
import sys
from dataclasses import replace

from tests.compare import programs
from tests.inputs import examples, files
from tests.inputs.examples import c1, flat
from tests.reference.reference import SHOCK_LIMITS, encode, refusal
from tests.writers.stored import asked_to_check, write_or_check

SEED = 2012


def worked():
    """The files among C1 to C12."""
    days = [flat(0), flat(-500), flat(-1_000), flat(-1_001), flat(100, 101), flat(5_000),
            [[0] + [6_000] * 59], [[0] + [6_001] * 59]]
    cases = [c1(days=rates) for rates in days]
    cases += [c1(amounts=c1().amounts | {"cash": 1_099_999}), c1(mean_age=540), c1(mean_age=781)]
    return [encode(case, False, False, True) for case in cases] + [b""]


def limits():
    """A fund with another number in every field, one of them at a time at an end of its limits."""
    changes = [{"ufr": 0}, {"ufr": 5_000}, {"heads": 1}, {"heads": 1_000_000}, {"pension_age": 1_200, "mean_age": 0},
               {"pension_age": 0, "mean_age": 1_200}, {"pension": [0]}, {"pension": [100_000_000] * 120}]
    changes += [{"days": [day]} for day in files.EXTREME_DAYS]
    changes += [{"shocks": examples.up().shocks | {"correlation": part}} for part in (0, 1_000)]
    return [replace(examples.up(), **change) for change in changes]


def some_damaged(rng, data, count):
    """So many damaged files, and one of each refusal."""
    damaged = files.damaged_once(data)
    return [*{refusal(bad): bad for bad in damaged}.values(), *rng.sample(damaged, count)]


def vector_files():
    rng = random.Random(SEED)
    cases = [examples.bent(), examples.up(), examples.down(), *files.ends(), *limits()]
    cases += [files.full_case(rng) for _ in range(4)] + [files.extreme_case(rng) for _ in range(12)]
    cases += [examples.random_case(rng) for _ in range(24)] + files.border_cases(rng, 28)
    # bonds past term 20: one flow; the largest factor, of one day and of 70
    cases += [examples.past_20(), *(replace(examples.deepest(), days=flat(-1_000) * n) for n in (1, 70))]
    rich = files.all_fields()
    damaged = some_damaged(rng, rich, 14) + [rich[:-1], rich + b"\0", rich[:1]]
    stored = worked() + [files.file_of(rng, case) for case in cases] + damaged + list(files.long_files(rng))[:3]
    return stored + four_byte_files(rng) + equity_files(2) + equity_files(4)


def equity_files(rate_bytes):
    """Files with an equity correlation: at its limits and between them, one past them, cut off inside, a byte behind it, and bit 9."""
    case = files.in_form(examples.up(), rate_bytes)
    values = [0, 1, 500, 999, SHOCK_LIMITS["equity_correlation"], SHOCK_LIMITS["equity_correlation"] + 1]
    made = [encode(replace(case, shocks=case.shocks | {"equity_correlation": value}), True, True, True, True) for value in values]
    half = made[2]
    return [*made, half[:-2], half[:-1], half + b"\0", bytes([half[0] | 2]) + half[1:]]


def four_byte_files(rng):
    """Files with four-byte days: rewritten ones, rates with seven decimals, the ends of the limits, and damage."""
    cases = [*map(files.rewritten_case, (examples.bent(), examples.up())), files.finer_case(examples.down()), *files.ends(4),
             replace(files.rewritten_case(examples.deepest()), days=flat(-100_000) * 70), c1(days=flat(1), rate_bytes=4), files.full_case(rng, 4)]
    cases += [examples.random_case(rng, rate_bytes=4) for _ in range(4)] + [files.extreme_case(rng, rate_bytes=4) for _ in range(4)]
    rich = files.all_fields(1, 4)
    return [files.file_of(rng, case) for case in cases] + some_damaged(rng, rich, 6) + [rich[:-1], rich + b"\0"]


def search_files():
    """Curves: one whose zero rates are a whole step at every term, a bent, a rising and a steep one, the lowest and the
    highest, and one of four-byte days. Among them files that are refused."""
    steep = replace(examples.up(), days=[files.zigzag(20, True)])
    cases = [c1(days=flat(4_200)), examples.bent(), examples.long(), steep, *files.ends(), files.finer_case(examples.bent())]
    accepted = [encode(case, True, bool(case.bonds), True) for case in cases]
    return [accepted[0], b"", *accepted[1:4], files.all_fields() + b"\0", *accepted[4:]]


def answer_vectors():
    stored = vector_files()
    answers = [programs.expected(data) for data in stored]
    assert {programs.outcome(answer.listing) for answer in answers} == set(programs.OUTCOMES)
    return {"crates/answers/stdin": programs.framed(stored),
            "crates/answers/stdout": b"".join(part for answer in answers for part in answer)}


def search_vectors():
    stored = search_files()
    found = [programs.expected_searches(data) for data in stored]
    return {"crates/searches/stdin": programs.framed(stored),
            "crates/searches/stdout": b"".join(map(programs.written_searches, found))}


def wanted():
    """Every file that this script writes, by its path."""
    return answer_vectors() | search_vectors()


def main(words):
    write_or_check(wanted(), asked_to_check(words))


if __name__ == "__main__":
    main(sys.argv[1:])
