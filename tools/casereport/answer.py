"""What is said of a file and of a history: filled in as it is read, valued and told."""

import json
from dataclasses import dataclass, field

import casetext
from casetext.months import Months

FIGURES = "L B A S1 S2 S3 S4 S5 S6 S".split()
STATUSES = 0, 1  # of the program: valued, and refused


class NoAnswer(Exception):
    """Why a file has no answer."""


@dataclass
class Answer:
    """What is said of one file. `sha256` is that of the file named, `sheets` has those of the sheets that a text case names; `data` is
    the case file that is valued, `case_sha256` its digest, and `case` the case that it holds. `status` is the program's, 2 where there is
    no answer. Of one that is valued there is a listing, or, where JSON or CSV is asked for, what the program tells in its place: `numbers`
    has the UFR, counts and sums under their names. `notes` say more about a refusal."""
    file: str
    sha256: str | None = None
    case_sha256: str | None = None
    sheets: dict[str, str] = field(default_factory=dict)
    data: bytes = b""
    case: casetext.Case | None = None
    status: int = 2
    listing: str | None = None
    refusal: int | None = None
    verdict: str | None = None
    figures: dict[str, list[int]] = field(default_factory=dict)
    numbers: dict[str, str | int] = field(default_factory=dict)
    warnings: list[str] = field(default_factory=list)
    notes: list[str] = field(default_factory=list)
    problem: str | None = None

    def take_listing(self, printed: str, status: int) -> None:
        """Takes over a whole listing, which ends in its last line; anything else is no answer."""
        *lines, rest = printed.split("\n")
        names = [line.partition(" ")[0] for line in lines]
        if rest or status not in STATUSES or names != (["R"] if status else [*FIGURES, "V"]):
            raise NoAnswer("the program gave no whole listing")
        self.status, self.listing = status, printed

    def take_told(self, printed: str, status: int) -> None:
        """Takes over what is told of the one file in the program's JSON; anything else is no answer."""
        try:
            row, = json.loads(printed)["valuations"]
            told = {name: row[name] for name in ("refusal", "verdict", "figures")}
        except (ValueError, KeyError, TypeError) as error:
            raise NoAnswer("the program gave no whole listing") from error
        if status not in STATUSES or (told["refusal"] is None) != (status == 0):
            raise NoAnswer("the program gave no whole listing")
        self.status, self.refusal, self.verdict, self.figures = status, told["refusal"], told["verdict"], told["figures"] or {}
        self.numbers = row


@dataclass
class History:
    """The history of months that gives every case its UFR, as bytes. `start` is as asked for, `sha256` that of the file named;
    `months` are those of an accepted history."""
    file: str
    start: int
    sha256: str | None = None
    data: bytes = b""
    months: Months | None = None
    warnings: list[str] = field(default_factory=list)
    problem: str | None = None


@dataclass(frozen=True)
class Report:
    answers: list[Answer]
    history: History | None

    def status(self, strict: bool) -> int:
        """No answer counts before a refusal, and a refusal before a warning, which counts where it is asked for."""
        statuses = {answer.status for answer in self.answers}
        warned = any(told.warnings for told in (*self.answers, self.history) if told)
        return 2 if 2 in statuses else 1 if 1 in statuses else 3 if strict and warned else 0
