"""Running the program that values a case file, which is proved of what the crates hold now (tools/proved.sh)."""

import fcntl
import os
import signal
import subprocess
from pathlib import Path

from .answer import Answer, History, NoAnswer

ROOT = Path(__file__).resolve().parents[2]
SCRIPT = 'root=$1; told_process=$2; . "$root/tools/proved.sh"; '
LARGEST_START = 2 ** 64 - 1
ENDS = signal.SIGINT, signal.SIGTERM, signal.SIGHUP
INTERRUPTED = 2
NOT_LOOKED_AT = "it was valued, but could not be looked at for slips"


class NotProved(Exception):
    """There is no proved program; why has been said."""


def end_quietly() -> None:
    """From here on a signal that ends the program does so without a word, as one that has no answer."""
    for number in ENDS:
        signal.signal(number, lambda number, frame: os._exit(INTERRUPTED))


def check_proved() -> subprocess.Popen:
    """Begins to compare the contents of the crates with those that were proved."""
    return started("is_proved")


def require_proved(check: subprocess.Popen, is_needed: bool) -> None:
    """Waits for the comparison that was begun, and proves the program where the contents are others and it is needed; raises
    NotProved."""
    if check.wait() and is_needed and ended(started("prove")):
        raise NotProved


def started(words: str) -> subprocess.Popen:
    """A shell that does these words of tools/proved.sh. Whoever waits for it is told the number of ./value, which started this."""
    return subprocess.Popen(["sh", "-c", SCRIPT + words, "value", str(ROOT), str(os.getppid())], stdin=subprocess.DEVNULL)


def ended(child: subprocess.Popen) -> int:
    """The status of a child that starts others. A signal that ends this program is handed on to it first, and is heeded once the
    child, which ends the others, has come to its end."""
    heard = []

    def hand_on(number: int, frame: object) -> None:
        heard.append(number)
        child.terminate()

    for number in ENDS:
        signal.signal(number, hand_on)
    status = child.wait()
    end_quietly()
    return INTERRUPTED if heard else status


def value(answer: Answer, history: History | None, is_text: bool) -> list[str]:
    """Values the case file of an answer, for a listing or for what else is told, and gives what is to be said of that."""
    try:
        run = run_on(answer.data, history, [] if is_text else ["--json"])
        take = answer.take_listing if is_text else answer.take_told
        take(run.stdout.decode("ascii", "replace"), run.returncode)
    except (NoAnswer, OSError) as problem:
        answer.problem = str(problem)
    if answer.problem:
        return answer.problem.splitlines()
    if answer.status == 0 and not answer.case:
        answer.warnings.append(NOT_LOOKED_AT)
        return [f"warning: {NOT_LOOKED_AT}"]
    return answer.notes if answer.status else []


def run_on(case: bytes, history: History | None, form: list[str]) -> subprocess.CompletedProcess:
    """The program's run on these bytes as its standard input. Those of a history it reads from a pipe, which holds them all. A start index
    that has no place in 64 bits is handed in as the largest, which is refused like it."""
    program = ROOT / "target" / "value" / "ginghamowl"
    if not history:
        return subprocess.run([program, *form, "-"], input=case, capture_output=True)
    start = history.start if 0 <= history.start <= LARGEST_START else LARGEST_START
    end, place = os.pipe()
    pipe = fcntl.fcntl(end, fcntl.F_DUPFD_CLOEXEC, 3)  # behind the program's own three, of which some may be closed here
    os.close(end)
    with open(pipe, "rb"):
        with open(place, "wb") as handed:
            handed.write(history.data)
        return subprocess.run([program, *form, "--months", f"/dev/fd/{pipe}", "--start", str(start), "-"], input=case, capture_output=True,
                              pass_fds=[pipe])
