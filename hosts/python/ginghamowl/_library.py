"""include/ginghamowl.h for ctypes: the structs, the functions, and where the shared library is.

The library is loaded at the first call and not at the import, so that a program can say in its own words that it is missing. It must
be of the version that this package is of: the structs of another may be others.
"""

import os
from ctypes import CDLL, POINTER, Structure, c_char, c_char_p, c_double, c_int16, c_int32, c_int64, c_size_t, c_uint8, c_uint32, c_uint64
from functools import cache
from pathlib import Path
from typing import Any, NamedTuple

from ._words import VERSION

#: The longest accepted file has this many bytes. Of a longer one, the first FILE_BYTES + 1 decide the refusal.
FILE_BYTES = 17625

#: A rolling window holds at most this many days.
WINDOW_DAYS = 70

#: A rolling window has this many bytes.
WINDOW_BYTES = 8896

#: A history has this many months.
HISTORY_MONTHS = 120

#: A history has this many bytes, two for each month.
HISTORY_BYTES = 240

DAY_RATES = 60
ENTRIES = 240
LISTING_BYTES = 512


class LibraryError(ImportError):
    """The engine's shared library can't be loaded, or is of another version than this package; the text says why."""


class HostVersion(Structure):
    _fields_ = [("major", c_uint32), ("minor", c_uint32), ("patch", c_uint32), ("kit", c_char * 32)]


class HostBracket(Structure):
    _fields_ = [("lower", c_uint64), ("upper", c_uint64)]


class HostFigures(Structure):
    _fields_ = [(name, HostBracket) for name in "l b a s1 s2 s3 s4 s5 s6 s".split()]


class HostValuation(Structure):
    _fields_ = [("refusal", c_uint8), ("verdict", c_uint8), ("figures", HostFigures)]


class HostPart(Structure):
    _fields_ = [("offset", c_size_t), ("length", c_size_t)]


class HostPoint(Structure):
    _fields_ = [("kind", c_uint8), ("lower", c_double), ("upper", c_double)]


class HostAmounts(Structure):
    _fields_ = [(name, c_uint64) for name in "mature emerging private_equity property commodities credit cash currency".split()]


class HostShocks(Structure):
    _fields_ = [(name, c_uint64) for name in (
        "up_shift down_shift mature_fall emerging_fall private_fall property_fall "
        "currency_fall commodities_fall spread_rise correlation spread duration equity_correlation").split()]


class HostPeople(Structure):
    _fields_ = [(name, c_uint64) for name in "heads pension_age mean_age".split()]


class HostCaseFields(Structure):
    _fields_ = [("rate_bytes", c_uint64), ("ufr", c_uint64), ("amounts", HostAmounts), ("shocks", HostShocks), ("people", HostPeople)]


class HostSaved(Structure):
    _fields_ = [("refusal", c_uint8), ("written", c_size_t)]


class HostRollingWindow(Structure):
    _fields_ = [("count", c_uint64), ("start", c_uint64), ("rates", c_int16 * (WINDOW_DAYS * DAY_RATES)),
                ("sums", c_int64 * DAY_RATES)]


class HostDay(Structure):
    _fields_ = [("rates", c_int32 * DAY_RATES)]


class HostChangedWindow(Structure):
    _fields_ = [("refusal", c_uint8), ("window", HostRollingWindow)]


class HostUfr(Structure):
    _fields_ = [("refusal", c_uint8), ("ufr", c_uint64)]


class Engine(NamedTuple):
    """The functions of ginghamowl.h, without the name's beginning."""

    version: Any
    value: Any
    refusal: Any
    rates_part: Any
    window_point: Any
    listing: Any
    save: Any
    rolling_empty: Any
    rolling_add: Any
    rolling_drop: Any
    rolling_value: Any
    ufr_of: Any
    value_with_months: Any


_FILE = c_char_p, c_size_t  # a pointer to the bytes themselves: zeros in them are as good as any other byte
_HISTORY = c_char_p, c_size_t, c_uint64  # with its start
_FACTORS = _FLOWS = POINTER(c_uint64), c_size_t
_RATES = POINTER(c_int64), c_size_t
_OUT = POINTER(c_uint8), c_size_t
_CASE = HostCaseFields, POINTER(c_int32), c_size_t, *_FLOWS, *_FLOWS

_RESULT_AND_ARGUMENTS: dict[str, tuple[Any, ...]] = {
    "version": (HostVersion,),
    "value": (HostValuation, *_FILE, *_FACTORS, *_RATES),
    "refusal": (c_uint8, *_FILE),
    "rates_part": (HostPart, *_FILE),
    "window_point": (HostPoint, c_uint64, *_FACTORS, HostFigures),
    "listing": (c_size_t, HostValuation, *_OUT),
    "save": (HostSaved, *_CASE, *_OUT),
    "rolling_empty": (HostRollingWindow,),
    "rolling_add": (HostChangedWindow, HostRollingWindow, HostDay),
    "rolling_drop": (HostChangedWindow, HostRollingWindow),
    "rolling_value": (HostValuation, HostRollingWindow, *_CASE, *_FACTORS, *_RATES),
    "ufr_of": (HostUfr, *_HISTORY),
    "value_with_months": (HostValuation, *_FILE, *_HISTORY, *_FACTORS, *_RATES),
}


@cache
def engine() -> Engine:
    """The engine, loaded once; raises LibraryError."""
    path = os.environ.get("GINGHAMOWL_LIBRARY") or Path(__file__).with_name("libginghamowl.so")
    try:
        library = CDLL(str(path))
    except OSError as error:
        raise _no_engine(error) from error
    if told := _other_version(library):
        raise _no_engine(f"{path} {told}, and this package is of version {VERSION}")
    try:
        return Engine(**{name: _function(library, name) for name in Engine._fields})
    except AttributeError as error:
        raise _no_engine(error) from error


def _no_engine(why: Exception | str) -> LibraryError:
    return LibraryError(f"the engine's shared library can't be loaded ({why}); hosts/build makes it, of this package's version, "
                        "and GINGHAMOWL_LIBRARY may name another place")


def _other_version(library: CDLL) -> str | None:
    """What a library says that is not of this package's version; None of one that is."""
    try:
        told = _function(library, "version")()
    except AttributeError:
        return "tells no version, as those before 0.9.0 do"
    version = f"{told.major}.{told.minor}.{told.patch}"
    return None if version == VERSION else f"is of version {version}"


def _function(library: CDLL, name: str) -> Any:
    function = getattr(library, f"ginghamowl_{name}")
    function.restype, *function.argtypes = _RESULT_AND_ARGUMENTS[name]
    return function
