"""python -m ginghamowl FILE: the curve, the figures and the verdict of a case file.

With --listing it prints the listing: names and cents, then V and the verdict, or R and the refusal. Standard error says what is
likelier a slip than meant in a file that is valued, and what a refused file looks like that is no case file.
Exit status: 0 valued, 1 refused, 2 no answer: the file can't be read, the call is wrong, the library can't be loaded or the
output was lost.
"""

import argparse
import os
import signal
import sys
from typing import TextIO

from . import FILE_BYTES, TERMS, Case, LibraryError, Refused, Valuation, __version__, value, warnings_of
from ._hints import hint

VALUED, REFUSED, NO_ANSWER = 0, 1, 2


def main() -> int:
    signal.signal(signal.SIGINT, signal.SIG_DFL)  # an interrupt ends the program, without a traceback
    try:
        status, answer, beside = answered()
    except SystemExit as end:  # argparse has printed the help, the version or what is wrong with the call
        status, answer, beside = int(end.code or 0), "", ""
    except (OSError, LibraryError) as error:
        status, answer, beside = NO_ANSWER, "", f"{error}\n"
    if not write(sys.stdout, answer):
        status, beside = NO_ANSWER, f"{beside}the output was lost: standard output is closed or full\n"
    write(sys.stderr, beside)
    return status


def answered() -> tuple[int, str, str]:
    """The exit status, what to print, and what to say on standard error."""
    parser = argparse.ArgumentParser(prog="python -m ginghamowl", description="Values a case file.")
    parser.add_argument("file", help="the case file; - reads standard input")
    parser.add_argument("--listing", action="store_true", help="print the listing instead")
    parser.add_argument("--version", action="version", version=f"ginghamowl {__version__}")
    options = parser.parse_args()
    data = contents(options.file)
    try:
        valuation = value(data)
    except Refused as refused:
        looks = hint(data)
        return REFUSED, f"R {refused.number}\n" if options.listing else f"{refused}\n", f"{looks}\n" if looks else ""
    warnings = "".join(f"warning: {warning}\n" for warning in warnings_of(Case.read(data)))
    return VALUED, valuation.listing() if options.listing else shown(valuation), warnings


def contents(path: str) -> bytes:
    """The file, or as much of it as decides the refusal."""
    if path == "-" and sys.stdin is None:
        raise OSError("standard input is closed")
    data = b""
    with open(0 if path == "-" else path, "rb", buffering=0, closefd=path != "-") as file:
        while part := file.read(FILE_BYTES + 1 - len(data)):
            data += part
    if part is None:
        raise OSError(f"{path} does not wait for its bytes, and has not come to its end")
    return data


def write(stream: TextIO | None, text: str) -> bool:
    """Whether a standard stream, which is None where it was closed, took the text and whatever it held before."""
    if stream is None:
        return False
    try:
        stream.write(text)
        stream.flush()
    except OSError:
        # The interpreter flushes at its end what is left, and would complain of it: that goes nowhere.
        os.dup2(os.open(os.devnull, os.O_WRONLY), stream.fileno())
        return False
    return True


def shown(valuation: Valuation) -> str:
    """The curve term by term, the figures in euros, and the verdict."""
    lines = ["term    factor, lower    factor, upper  rate, lower  rate, upper"]
    for term in range(1, TERMS + 1):
        factor, rate = valuation.factor(term), valuation.zero_rate(term)
        lines.append(f"{term:4}  {decimal(factor.lower):>15}  {decimal(factor.upper):>15}"
                     f"  {percent(rate.lower):>11}  {percent(rate.upper):>11}")
    lines += ["", "       lower, in euros      upper, in euros"]
    for name, figure in valuation.figures:
        lines.append(f"{name:2}  {euros(figure.lower):>18}  {euros(figure.upper):>19}")
    return "\n".join([*lines, "", valuation.verdict.word, ""])


def decimal(units: int) -> str:
    """A factor, from units of 10^-12."""
    return f"{units // 10 ** 12}.{units % 10 ** 12:012}"


def percent(steps: int) -> str:
    """A rate, from steps of 0.00001."""
    return f"{'-' if steps < 0 else ''}{abs(steps) // 1_000}.{abs(steps) % 1_000:03} %"


def euros(cents: int) -> str:
    return f"{cents // 100:,}.{cents % 100:02}"


if __name__ == "__main__":
    sys.exit(main())
