"""What a case file holds, part by part, or which byte breaks which rule."""

import textwrap
import tomllib
from pathlib import Path

from .fields import DEFAULT_EQUITY_CORRELATION, DEFAULT_UFR, Case
from .filebytes import Fault, Reader
from .relief import Ends, relieved
from .units import RATE, SHARE, shown

WORDS = Path(__file__).resolve().parents[2] / "hosts" / "words.toml"  # the table of refusal sentences
WIDTH = 118


def sentence_of(number: int) -> str:
    """The general sentence of a refusal."""
    table = tomllib.loads(WORDS.read_text("utf-8"))
    return next(row["sentence"] for row in table["refusal"] if row["number"] == number)


def explain(data: bytes) -> tuple[str, bool]:
    """What a file holds, part by part, and whether it is accepted."""
    reader, fault = Reader(data), None
    try:
        case = reader.whole_case()
    except Fault as found:
        fault = found
    lines = ["  byte  length  what it says"]
    for part in reader.parts:
        lines += textwrap.wrap(part.says, WIDTH, initial_indent=f"{part.byte:6}  {part.length:6}  ",
                               subsequent_indent=" " * 18)
    if fault:
        return "\n".join([*lines, "", str(fault), f"refusal {fault.number}: {sentence_of(fault.number)}", ""]), False
    said = " " * 16
    return "\n".join([*lines, *(said + line for line in [*absent(case), *relief_of(case)]), "", f"accepted: {len(data):,} bytes", ""]), True


def absent(case: Case) -> list[str]:
    """A line for each field that an accepted file does not have, with what holds then."""
    return [f"{name} absent: {meaning}" for name, held, meaning in (
        ("UFR", case.ufr, shown(DEFAULT_UFR, RATE)), ("bond flows", case.bonds, "none"), ("amounts", case.amounts, "all 0"),
        ("equity correlation", case.equity_correlation, f"{shown(DEFAULT_EQUITY_CORRELATION, SHARE)}, so that S2 is the sum of its losses"))
        if held is None]


def relief_of(case: Case) -> list[str]:
    """S2 without relief for spread and with it, where the case has any correlation below 100 %."""
    both = relieved(case)
    return [f"S2 without relief, the sum of its losses: {in_euros(both[0])}", f"S2 with it: {in_euros(both[1])}"] if both else []


def in_euros(ends: Ends) -> str:
    """A bracket in cents as people say it, its two ends where they differ."""
    return " to ".join(f"{cents // 100:,}.{cents % 100:02}" for cents in sorted(set(ends))) + " euros"
