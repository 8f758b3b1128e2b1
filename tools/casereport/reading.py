"""Reading the files that ./value is given, and looking at what they hold."""

import hashlib
import sys
from pathlib import Path

import casetext
from casetext import months
from ginghamowl._hints import hint

from .answer import Answer, History, NoAnswer

MOST_BYTES, MOST_HISTORY_BYTES = 17_626, 241  # the longest acceptable file and history have a byte less, so these decide
LARGEST_TEXT, LARGEST_FILE = 16_000_000, 1 << 30  # bytes; more is no case, and an endless input must end


def contents(name: str, is_text: bool, most: int) -> tuple[bytes, str]:
    """All of a text, or this many bytes of another file, and the SHA-256 of all of it."""
    if name == "-" and sys.stdin is None:  # the number 0 may be of another file by now
        raise NoAnswer("cannot be read: standard input is closed")
    front, digest, length = bytearray(), hashlib.sha256(), 0
    most, largest = (LARGEST_TEXT, LARGEST_TEXT) if is_text else (most, LARGEST_FILE)
    try:
        with open(0 if name == "-" else name, "rb", buffering=0, closefd=name != "-") as file:
            while chunk := file.read(1 << 16):
                digest.update(chunk)
                length += len(chunk)
                front += chunk[:most - len(front)]
                if length > largest:
                    raise NoAnswer(f"cannot be read: it has more than {largest:,} bytes")
    except (OSError, ValueError) as error:  # a ValueError: a name that no file can have
        raise NoAnswer(f"cannot be read: {error}") from error
    if chunk is None:  # an input that does not wait for its bytes
        raise NoAnswer("cannot be read: it has not come to its end")
    return bytes(front), digest.hexdigest()


# ---------------------------------------------------------------- cases

def read_case(name: str, is_text: bool, history: History | None) -> Answer:
    """The case file in a file, and what is implausible about its case; the answer's problem says where there is none."""
    answer = Answer(name)
    try:
        data, answer.sha256 = contents(name, is_text, MOST_BYTES)
        if is_text:
            take_text(answer, data)
            answer.case_sha256 = hashlib.sha256(answer.data).hexdigest()
        else:
            take_file(answer, data)
            answer.case_sha256 = answer.sha256
        if history and history.problem:
            raise NoAnswer(f"the history {history.file} cannot be used")
    except NoAnswer as problem:
        answer.problem = str(problem)
    if answer.case and not answer.problem:
        answer.warnings = casetext.warnings_of(answer.case, history.months if history else None)
    return answer


def take_text(answer: Answer, data: bytes) -> None:
    """Takes the case of a text. One that the engine will refuse has its bytes, and notes that say why by the text's own keys."""
    folder = Path("." if answer.file == "-" else answer.file).parent
    try:
        answer.case = casetext.from_toml(casetext.decoded(data), folder)
        answer.data, answer.sheets = casetext.write(answer.case), answer.case.sheets
    except casetext.RefusedText as refused:
        answer.data, answer.sheets, answer.notes = casetext.bytes_of(refused.case), refused.case.sheets, refused.faults
    except (casetext.Wrong, casetext.Fault) as wrong:
        raise NoAnswer(str(wrong)) from wrong


def take_file(answer: Answer, data: bytes) -> None:
    """Takes a case file, whatever its bytes. Of one that the engine will refuse, a note says what else it looks like."""
    answer.data = data
    try:
        answer.case = casetext.read(data)
    except casetext.Fault:
        looks = hint(data)
        answer.notes = [looks] if looks else []


# ---------------------------------------------------------------- histories

def read_history(name: str, start: int | None, unit: str | None) -> History:
    """The history in a file, and what is implausible about its months; its problem says where there is none."""
    history, is_text = History(name, start or 0), is_csv(name)
    try:
        data, history.sha256 = contents(name, is_text, MOST_HISTORY_BYTES)
        if is_text:
            take_months(history, data, unit)
        else:
            take_history(history, data)
    except NoAnswer as problem:
        history.problem = str(problem)
    if history.months:
        history.warnings = casetext.month_warnings(history.months)
    return history


def take_months(history: History, data: bytes, unit: str | None) -> None:
    """Takes the months of a CSV file. A start index that the engine will refuse has some place too."""
    try:
        history.months = months.from_csv(data, unit, "--months-unit")
    except casetext.Wrong as wrong:
        raise NoAnswer(str(wrong)) from wrong
    history.data = months.write(history.months.rates, history.start % months.MONTHS)


def take_history(history: History, data: bytes) -> None:
    """Takes the bytes of a history, whatever they are."""
    history.data = data
    try:
        history.months = months.Months(months.read(data, history.start))
    except casetext.Wrong:
        history.months = None  # the engine will refuse it


def is_csv(name: str) -> bool:
    return name.lower().endswith(".csv")
