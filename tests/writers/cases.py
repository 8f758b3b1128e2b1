"""Writes the example case files of cases/, and beside each what the reference says of it.

Command line: python3 -m tests.writers.cases           writes them
              python3 -m tests.writers.cases --check   ends with 1 if one of them is another, or if cases/ holds anything else

    NAME.case      the bytes
    NAME.toml      of an accepted file: the case as text, for tools/casefile
    NAME.explain   of a refused file, which is no case: what tools/casefile explains of it
    NAME.txt       the listing, which is what ./value prints
    NAME.curve     factors (F term lower upper), zero rates (Z ..), and the place of the rates (P offset length)

fund.toml and fund-days.csv are written by hand, as an office writes them; fund.case is their case. So is fund-months.csv, a history
of months; fund.months is its ring, and fund-months.txt the listing of fund.case with it. seven.case is the case of seven.toml and
seven-days.csv, whose made-up rates have seven decimals and so four bytes; no script writes these two. cases/README.md lists all.
The bytes of the others, every listing and every curve come of the reference alone (tests/reference); the texts and the ring come of
tools/casefile.
"""

import os
import sys
from dataclasses import dataclass, replace
from pathlib import Path

from tests import ROOT
from tests.compare import programs
from tests.inputs import examples
from tests.inputs.examples import c1, flat
from tests.reference import months, reference
from tests.writers.stored import asked_to_check, write_or_check

sys.path[:0] = [str(ROOT / "tools")]
import casetext

FOLDER = ROOT / "cases"
BY_HAND = {"fund.toml", "fund-days.csv", "fund-months.csv", "seven.toml", "seven-days.csv"}
START = 37  # the place of the oldest month in fund.months


@dataclass(frozen=True)
class Example:
    """A case file, and what it shows."""
    name: str
    data: bytes
    title: str


def plain(**changes):
    """C1's file with some fields changed. Its UFR is there only where it is changed."""
    return reference.encode(c1(**changes), "ufr" in changes, False, True)


def cash(euros):
    return {"amounts": c1().amounts | {"cash": euros}}


def hand_worked():
    """The files among the twelve hand-worked cases; C6 is about C1's file, C9 about no file."""
    yield Example("c1", plain(), "C1: one flow, one cash amount, S6 alone in the buffer; assets just reach L + S")
    yield Example("c2", plain(**cash(1_099_999)), "C2: C1 with one euro less")
    yield Example("c3", plain(days=flat(-500)), "C3: rates below 0")
    yield Example("c4", plain(days=flat(-1_000)), "C4: the lowest rates that pass")
    yield Example("c5", plain(days=flat(100, 101)), "C5: two days, whose mean is no whole step")
    yield Example("c7", plain(days=flat(5_000)), "C7: flat at 5 percent, above the UFR")
    yield Example("c8", plain(days=[[0] + [6_000] * 59]), "C8: the highest forward rate that passes")
    yield Example("c10", plain(mean_age=540), "C10: an age gap of twenty years")
    yield Example("c11", plain(mean_age=781), "C11: a mean age above the pension age")
    yield Example("c12", b"", "C12: the empty file")


def funds():
    for name, title in (("up", "every field; bonds longer than pensions, so the up curve hurts"),
                        ("down", "every field; pensions outweigh bonds, so the down curve hurts; S5 exceeds the credit"),
                        ("bent", "a curve that rises, falls, rises and falls, with negative short rates"),
                        ("deepest", "the lowest rates, and one bond flow, at term 60, which stays on the unadjusted curve")):
        case = getattr(examples, name)()
        yield Example(name, reference.encode(case, True, bool(case.bonds), True), title)
    largest = replace(examples.apart(), days=flat(*range(70)), pension=[10 ** 8] * 120, bonds=[10 ** 8] * 60)
    yield Example("largest", reference.encode(largest, True, True, True),
                  "the longest file of two-byte rates: every field, 70 days, 120 and 60 flows")
    longest = replace(largest, days=flat(*range(0, 70 * 101, 101)), rate_bytes=4)
    yield Example("longest", reference.encode(longest, True, True, True),
                  "the longest file: every field, 70 days of four-byte rates, 120 and 60 flows")
    yield Example("shortage", plain(**cash(1_049_999)), "C1 with one euro less than 105 percent of L")
    data = casetext.write(by_hand("fund.toml"))
    yield Example("fund", data, "a realistic small fund, written by hand as text; start here")
    fund = reference.read(data)
    undecided = replace(fund, amounts=fund.amounts | {"cash": 19_260_330})
    yield Example("fund_undecided", reference.encode(undecided, True, True, True),
                  "the fund with cash that brings it within two euros of a border")
    spread = replace(fund, shocks=fund.shocks | {"equity_correlation": 500})
    assert reference.Rounded(spread).S2 < reference.Rounded(fund).S2
    yield Example("fund_spread", reference.encode(spread, True, True, True),
                  "the fund with a correlation of 50 percent between its equity classes, which makes its buffer smaller")
    days = [list(day) for day in fund.days]
    days[12][29] *= 10
    yield Example("fund_refused", reference.encode(replace(fund, days=days), True, True, True),
                  "the fund with a decimal comma that slipped in one rate")
    yield seven()


def by_hand(name):
    return casetext.from_toml((FOLDER / name).read_text("utf-8"), FOLDER)


def seven():
    """The fund whose rates have seven decimals, and whose cash is such that these decide."""
    case = by_hand("seven.toml")
    data, rounded = casetext.write(case), [[round(rate, -2) // 100 for rate in day] for day in case.days]
    assert programs.outcome(reference.listing(data)) == "V VRIJ VERMOGEN"
    assert programs.outcome(reference.listing(casetext.write(replace(case, rate_bytes=2, days=rounded)))) == "V RESERVETEKORT"
    return Example("seven", data, "rates with seven decimals, in four bytes, with the days in a sheet; rounded to five decimals "
                                  "they would give RESERVETEKORT")


def refused():
    data = plain()
    files = [data[:-1], data + b"\0", b"\x00\x74" + data[2:], data[:2] + b"\0" + data[3:], plain(days=flat(-1_001)),
             plain(days=[[0] + [6_001] * 59]), plain(pension=[0] * 121), plain(pension=[100_000_001]), plain(ufr=5_001),
             plain(**cash(100_000_000_001)), plain(shocks=c1().shocks | {"duration": 501}), plain(heads=0)]
    for number, file in enumerate(files, 1):
        assert reference.read(file) == reference.Refusal(number)
        yield Example(f"refused_{number:02}", file, f"C1 with one fault, refusal {number}")


def all_examples():
    return [*funds(), *hand_worked(), *refused()]


# ---------------------------------------------------------------- what is written

def curve(data):
    """The curve of an accepted file, and where the rates are."""
    lines, case = [], reference.read(data)
    if not isinstance(case, reference.Refusal):
        rounded = reference.Rounded(case)
        for name, brackets in (("F", rounded.factors), ("Z", rounded.zero_rates)):
            lines += [f"{name} {t} {brackets[t][0]} {brackets[t][1]}\n" for t in range(1, 121)]
    return "".join(lines) + "P %d %d\n" % reference.rates_part(data)


def texts(example):
    """NAME.toml of an accepted file, NAME.explain of a refused one."""
    name, data = example.name, example.data
    if isinstance(reference.read(data), reference.Refusal):
        return {f"{name}.explain": casetext.explain(data)[0]}
    if f"{name}.toml" in BY_HAND:
        return {}
    text = f"# {example.title[0].upper()}{example.title[1:]}.\n" + casetext.to_toml(casetext.read(data))
    assert casetext.write(casetext.from_toml(text)) == data
    return {f"{name}.toml": text}


def table(examples):
    """cases/README.md: every example with what it shows and how its listing ends."""
    rows = "".join(f"| {one.name} | {one.title} | {programs.outcome(reference.listing(one.data))} |\n" for one in examples)
    return ("# Example case files\n\n"
            "Written by tests/writers/cases.py, but for fund.toml, fund-days.csv, fund-months.csv, seven.toml and seven-days.csv, which no script\n"
            "writes. Its first lines say what each kind of file holds.\n\n"
            f"fund.months is the history of months in fund-months.csv, its oldest month at place {START} of the ring. In this folder\n"
            f"`../value --months fund.months --start {START} fund.case` prints fund-months.txt, and so does\n"
            "`../value --months fund-months.csv fund.case`.\n\n| Name | What it is | Its last line |\n|---|---|---|\n" + rows)


def with_months(fund):
    """fund.months and fund-months.txt, of the history in fund-months.csv and the file of the fund."""
    rates = casetext.months.from_csv((FOLDER / "fund-months.csv").read_bytes()).rates
    history = casetext.months.write(rates, START)
    return {"cases/fund.months": history, "cases/fund-months.txt": months.listing(fund, history, START)}


def wanted():
    """Every file that this script writes, by its path in the tree. Every refusal and every verdict is among the examples."""
    examples = all_examples()
    assert {programs.outcome(reference.listing(one.data)) for one in examples} == set(programs.OUTCOMES)
    contents = {"README.md": table(examples)}
    for one in examples:
        contents[f"{one.name}.txt"] = reference.listing(one.data).decode()
        contents[f"{one.name}.curve"] = curve(one.data)
        contents |= texts(one)
    files = {f"cases/{name}": text.encode() for name, text in contents.items()}
    files |= {f"cases/{one.name}.case": one.data for one in examples}
    files |= with_months(files["cases/fund.case"])
    c1_file = files["cases/c1.case"], files["cases/c1.txt"]
    return files | dict(zip(("crates/ginghamowl/stdin", "crates/ginghamowl/stdout"), c1_file))


def main(words):
    files = wanted()
    write_or_check(files, asked_to_check(words))
    others = set(os.listdir(FOLDER)) - {Path(path).name for path in files} - BY_HAND
    if others:
        sys.exit(f"cases/ holds files that no script writes: {', '.join(sorted(others))}")


if __name__ == "__main__":
    main(sys.argv[1:])
