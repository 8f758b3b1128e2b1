"""What ./value writes: the listings, or all that is known of each file as JSON or CSV."""

import csv
import io
import json
import os
import tomllib
from pathlib import Path

from casetext.plausible import equity_correlation
from casetext.relief import relieved

from .answer import FIGURES, Answer, History, Report

ROOT = Path(__file__).resolve().parents[2]
VERSION = (ROOT / "VERSION").read_text("ascii").strip()
BETWEEN = " | "  # the warnings, and the sheets, in a cell of CSV
MARKS = ",", ";"  # between the cells of CSV; the first where nothing is said
VALUED = ["ufr", "ufr_from", "rate_bytes", "days", "first_day", "last_day", "pension_flows", "pension_sum", "bond_flows", "bond_sum",
          "assets_sum", "equity_correlation"]
UNRELIEVED = "S2_without_relief"  # the sum of the losses of S2, of a case at a correlation below 100 %


# ---------------------------------------------------------------- what was valued

def valued(answer: Answer) -> dict[str, str | int | None]:
    """The numbers by which an office knows its case again, as the program tells them, with the days of its sheet and what S2 has its
    relief from; none of a file that was not valued, or not looked at."""
    if not answer.verdict or not answer.case:
        return dict.fromkeys(VALUED)
    dates = answer.case.dates
    days = {"first_day": min(dates).isoformat(), "last_day": max(dates).isoformat()} if dates else {}
    told = answer.numbers | days | {"equity_correlation": equity_correlation(answer.case)}
    return {name: told.get(name) for name in VALUED}


def unrelieved(answer: Answer) -> list[int] | None:
    """The ends of S2 without relief; None where a file was not valued, or not looked at, or where S2 has none."""
    both = relieved(answer.case) if answer.verdict and answer.case else None
    return list(both[0]) if both else None


def sentence(refusal: int | None) -> str | None:
    if refusal is None:
        return None
    with open(ROOT / "hosts" / "words.toml", "rb") as table:
        return {row["number"]: row["sentence"] for row in tomllib.load(table)["refusal"]}[refusal]


def months_named(history: History) -> dict[str, str | int | None]:
    return {"months": history.file, "months_sha256": history.sha256, "start": history.start}


# ---------------------------------------------------------------- forms

def as_text(report: Report) -> str:
    """One listing as it is; of several, each under its file's name."""
    if len(report.answers) == 1:
        return report.answers[0].listing or ""
    return "\n".join(answer.file + "\n" + (answer.listing or "no answer\n") for answer in report.answers)


def as_json(report: Report) -> str:
    rows = [{"file": answer.file, "sha256": answer.sha256, "case_sha256": answer.case_sha256, "sheets": answer.sheets,
             **valued(answer),
             "refusal": answer.refusal, "refusal_sentence": sentence(answer.refusal), "verdict": answer.verdict,
             "figures": answer.figures or None, UNRELIEVED: unrelieved(answer),
             "warnings": answer.warnings, "problem": answer.problem} for answer in report.answers]
    history = report.history
    months = {**months_named(history), "months_warnings": history.warnings, "months_problem": history.problem} if history else {}
    return json.dumps({"version": VERSION, "unit": "cents", **months, "valuations": rows}, indent=2, ensure_ascii=True) + "\n"


def as_csv(report: Report, mark: str = MARKS[0]) -> str:
    """A line for each file, figures in cents; what a file does not have is empty. A cell that has the mark in it stands in quotes."""
    out = io.StringIO()
    writer = csv.DictWriter(out, list(csv_row(Answer(""), report.history)), delimiter=mark, lineterminator="\n")
    writer.writeheader()
    writer.writerows(csv_row(answer, report.history) for answer in report.answers)
    return out.getvalue()


def csv_row(answer: Answer, history: History | None) -> dict[str, str | int | None]:
    """The columns of version 0.8 in their places, and those that came later behind them."""
    months = {**months_named(history), "ufr": None} if history else {}
    ends = {key: number for name in FIGURES for key, number in both_ends(name, answer.figures.get(name))}
    return {"file": answer.file, "sha256": answer.sha256, "case_sha256": answer.case_sha256, "version": VERSION, **months,
            "refusal": answer.refusal, "verdict": answer.verdict, **ends, "problem": answer.problem,
            "refusal_sentence": sentence(answer.refusal), "warnings": BETWEEN.join(answer.warnings),
            **({"months_warnings": BETWEEN.join(history.warnings)} if history else {}),
            "sheets": BETWEEN.join(f"{name} {digest}" for name, digest in answer.sheets.items()), **valued(answer),
            **dict(both_ends(UNRELIEVED, unrelieved(answer)))}


def both_ends(name: str, ends: list[int] | None) -> list[tuple[str, int | None]]:
    """The two columns of a bracket; empty cells where there is none."""
    return list(zip((f"{name}_lower", f"{name}_upper"), ends or (None, None)))


def write(text: str) -> None:
    """Writes to standard output; raises OSError where it is closed or full."""
    data = text.encode("utf-8", "surrogateescape")  # a file's name goes out as it came in
    while data:
        data = data[os.write(1, data):]
