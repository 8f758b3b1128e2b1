"""Case files as text: what tools/casefile does, for programs. tools/casefile describes the text form."""

import sys
from pathlib import Path

# The Python package of this checkout, before one that is installed: it has the rules of plausibility.
sys.path[:0] = [str(Path(__file__).resolve().parents[2] / "hosts" / "python")]

from . import months
from .explaining import explain
from .fields import Case
from .filebytes import Fault, Part, Reader, bytes_of, read, refusal, write
from .parsing import RefusedText, Wrong, decoded, from_toml
from .plausible import month_warnings, rules, warnings_of
from .printing import template, to_toml

__all__ = ["Case", "Fault", "Part", "Reader", "RefusedText", "Wrong", "bytes_of", "decoded", "explain", "from_toml", "month_warnings",
           "months", "read", "refusal", "rules", "template", "to_toml", "warnings_of", "write"]
