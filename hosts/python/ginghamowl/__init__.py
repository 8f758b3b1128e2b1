"""The valuation of one pension fund from one case file, every figure proved.

    import ginghamowl

    with open("fund.case", "rb") as file:
        valuation = ginghamowl.value(file.read())
    print(valuation.verdict.word, valuation.figures.l, valuation.factor(30))

Case.read(data) takes a case file apart, and Case.save() writes the shortest file of a case; a case says by its DaysForm whether its
rates have two bytes or four. A RollingWindow holds the last trading days, to which one is added each evening and the oldest dropped,
and values a case with them. A History holds the forward rates of 120 month ends, finds the UFR from them, and values a case file with
it. warnings_of(case) says what is likelier a slip than meant in a case, and in the history that gives its UFR.

What the numbers mean is in docs/METHOD.md of the repository, cited as METHOD with the name of a section: a case file (METHOD, The
case file), a figure (METHOD, The exact working), a refusal (METHOD, Refusals), saving (METHOD, Saving a case), a rolling window
(METHOD, A rolling window of days), a history (METHOD, The UFR from a history of months) and zero rates in four bytes (METHOD,
Rates in four bytes).

The numbers and the saved bytes come from the proved engine, through the shared library libginghamowl.so, which `hosts/build` puts
beside this file and a wheel contains; the environment variable GINGHAMOWL_LIBRARY may name another place. The first call loads
it, and raises LibraryError where that fails or the library is of another version than this package. kit() says with which kit the
engine is proved. Nothing but the standard library is needed.
"""

from . import _given
from . import _library as _c
from ._case import DEFAULT_EQUITY_CORRELATION, Amounts, Case, DaysForm, People, Shocks
from ._given import Refused, refusal
from ._library import FILE_BYTES, HISTORY_BYTES, HISTORY_MONTHS, WINDOW_BYTES, WINDOW_DAYS, LibraryError
from ._months import History
from ._plausible import warnings_of
from ._rolling import RollingWindow
from ._valuation import TERMS, Bracket, Figures, Kind, Point, Valuation, Verdict, valued
from ._words import SENTENCES
from ._words import VERSION as __version__

__all__ = ["DEFAULT_EQUITY_CORRELATION", "FILE_BYTES", "HISTORY_BYTES", "HISTORY_MONTHS", "SENTENCES", "TERMS", "WINDOW_BYTES",
           "WINDOW_DAYS", "Amounts", "Bracket", "Case", "DaysForm", "Figures", "History", "Kind", "LibraryError", "People", "Point",
           "Refused", "RollingWindow", "Shocks", "Valuation", "Verdict", "__version__", "kit", "rates_part", "refusal", "value",
           "warnings_of"]


def kit() -> str:
    """The kit of the toolchain that the engine is proved with, as the library tells it."""
    return _c.engine().version().kit.decode("ascii")


def value(data: bytes) -> Valuation:
    """The valuation of a case file; raises Refused with the refusal's number (METHOD, Refusals) where it has one."""
    file = _given.file_bytes(data)
    return valued(_c.engine().value, file, len(file))


def rates_part(data: bytes) -> bytes:
    """The part of an accepted case file that holds the zero rates; raises Refused.

    It has 120 bytes for each day, or 240 where a rate has four, which `Case.read(data).days_form` says.
    """
    file = _given.accepted(data)
    part = _c.engine().rates_part(file, len(file))
    return file[part.offset:part.offset + part.length]
