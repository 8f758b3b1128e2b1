"""Writes the case files of the benchmark: python3 bench/files.py DIRECTORY

small, typical and large are timed; four_* are the same with rates in four bytes; n_*, m_* and k_* show how the work grows with the
days, the pension flows and the bond flows, the other two counts standing still; curve_* have the counts of n_35, and show how it
depends on the curve: of one all zero rates are the UFR, of the other they fall from 9 percent towards it; check_* are only checked:
funds from the tests' generator, and check_low, whose bonds have the largest factors that the limits allow, on the down curve;
check_four_* are likewise, with rates in four bytes, and check_four_high has the largest products that the limits allow."""

import random
import sys
from dataclasses import replace
from pathlib import Path

sys.path.insert(0, str(Path(__file__).resolve().parent.parent))

from tests.inputs import examples, files  # noqa: E402
from tests.reference.reference import AMOUNTS, SHOCKS, Case, Refusal, encode, read  # noqa: E402


def day(rng):
    """A smooth curve from about 0.5 to 2.7 percent, which moves a little from day to day."""
    level = 300 + rng.randint(-40, 40)
    return [level + 2_800 * t // (t + 12) for t in range(1, 61)]


def fund(n, m, k):
    """A fund whose pension flows rise and fall with the term, and whose bonds pay about half as much."""
    rng = random.Random(1)
    return Case(
        ufr=4_200, days=[day(rng) for _ in range(n)],
        pension=[20_000_000 + 1_234_567 * min(t, 30) - 400_000 * max(0, t - 30) for t in range(1, m + 1)],
        bonds=[11_111_111 + 54_321 * t for t in range(1, k + 1)],
        amounts=dict(zip(AMOUNTS, [400_000_000, 90_000_000, 60_000_000, 110_000_000, 40_000_000, 80_000_000,
                                   25_000_000, 210_000_000])),
        shocks=dict(zip(SHOCKS, [110, 90, 250, 350, 300, 150, 200, 300, 600, 500, 1_500, 65, 1_000])),
        heads=23_456, pension_age=804, mean_age=541)


def cases():
    for name, case in (("small", fund(1, 1, 0)), ("typical", fund(65, 80, 30)), ("large", fund(70, 120, 60))):
        yield name, case
        yield f"four_{name}", files.rewritten_case(case)
    for n in (1, 35, 70):
        yield f"n_{n}", fund(n, 60, 30)
    for m in (1, 60, 120):
        yield f"m_{m}", fund(35, m, 30)
    for k in (0, 30, 60):
        yield f"k_{k}", fund(35, 60, k)
    for rate in (4_200, 9_000):
        yield f"curve_{rate}", replace(fund(35, 60, 30), days=examples.flat(rate) * 35)
    rng = random.Random(2)
    for i in range(20):
        yield f"check_{i}", files.extreme_case(rng) if i % 2 else examples.random_case(rng)
    for i in range(20):
        yield f"check_four_{i}", files.extreme_case(rng, rate_bytes=4) if i % 2 else examples.random_case(rng, rate_bytes=4)
    low = fund(70, 120, 60)
    low = replace(low, days=examples.flat(-1_000) * 70, shocks=low.shocks | {"down_shift": 1_000})
    yield "check_low", low
    yield "check_four_low", files.rewritten_case(low)
    yield "check_four_high", files.largest_products(4)[-1]


def main(directory):
    for name, case in cases():
        data = encode(case, True, bool(case.bonds), True)
        if isinstance(read(data), Refusal):
            sys.exit(f"{name} is refused")
        (Path(directory) / f"{name}.case").write_bytes(data)


if __name__ == "__main__":
    main(sys.argv[1])
