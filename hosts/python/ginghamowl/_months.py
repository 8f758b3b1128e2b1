"""A history of months, whose mean is the UFR: each month end's forward rate takes the place of the oldest."""

from collections.abc import Sequence
from typing import Any

from . import _given
from . import _library as _c
from ._given import Refused
from ._library import HISTORY_MONTHS, LibraryError
from ._valuation import Valuation, valued

HISTORY, MONTH = 17, 18  # the refusals of a wrong length or start, and of a month out of limits


class History:
    """The month-end forward rates of ten years in a ring, and the place of the oldest.

    Its bytes are those that the header names a history: two for each month, two's complement, the high byte first, in steps of
    0.00001. Any bytes and any start make a history: ufr() and value() say what is out of limits. Where a call raises it changes
    nothing. Histories are equal whose bytes and start are.
    """

    def __init__(self, months: Sequence[int], start: int = 0) -> None:
        """The history of these months, in steps of 0.00001, from the first place of the ring on; the oldest stands at `start`, which
        is 0 where the months are given oldest first. There must be 120.

        A number that its bytes have no room for, two for a month and eight for the start, is kept as the end of their range, which is
        out of limits as well. One that is no int raises TypeError.
        """
        self._bytes = b"".join(_month_bytes(number) for number in months)
        self._start = _given.unsigned(start, "a start index")

    @classmethod
    def from_bytes(cls, data: bytes, start: int) -> "History":
        """The history of these bytes, whatever they are and however many; the oldest month stands at `start`."""
        history = cls((), start)
        history._bytes = _given.as_bytes(data, "a history of months")
        return history

    def to_bytes(self) -> bytes:
        """The bytes of the history. They and the start may be kept in a file."""
        return self._bytes

    @property
    def start(self) -> int:
        """The place of the oldest month in the ring."""
        return self._start

    def __eq__(self, other: object) -> bool:
        return self._arguments() == other._arguments() if isinstance(other, History) else NotImplemented

    def __repr__(self) -> str:
        """With the UFR in steps, or the refusal. A history may be made without the library, and so shown."""
        try:
            found = f"UFR {self.ufr()}"
        except Refused as refused:
            found = f"refused with {refused.number}"
        except LibraryError:
            found = "UFR unknown without the library"
        return f"<History: oldest month at {self._start}, {found}>"

    def months(self) -> tuple[int, ...]:
        """The months, oldest first. Raises Refused with 17 for a history that has not 240 bytes, or whose start is above 119.

        The engine judges it, and the months are taken out here.
        """
        self._require_ring()
        places = [2 * ((self._start + later) % HISTORY_MONTHS) for later in range(HISTORY_MONTHS)]
        return tuple(int.from_bytes(self._bytes[place:place + 2], "big", signed=True) for place in places)

    def replace_oldest(self, month: int) -> None:
        """Puts a month, in steps of 0.00001, in place of the oldest; it is then the newest.

        Raises Refused, in this order: 17 as months() does, 18 where the changed history has a month out of limits. A UFR out of limits
        does not matter here. A month that is no int raises TypeError.
        """
        new = _month_bytes(month)
        self._require_ring()
        place = 2 * self._start
        changed = History.from_bytes(self._bytes[:place] + new + self._bytes[place + 2:], (self._start + 1) % HISTORY_MONTHS)
        if changed._found().refusal == MONTH:
            raise Refused(MONTH)
        self._bytes, self._start = changed._bytes, changed._start

    def ufr(self) -> int:
        """The UFR in steps of 0.00001: the mean of the months, rounded to the nearest 100 steps, halves upward.

        Raises Refused, in this order: 17 for a history that has not 240 bytes or whose start is above 119, 18 for a month out of
        limits, 19 for a UFR outside 0 to 5,000.
        """
        found = self._found()
        if found.refusal:
            raise Refused(found.refusal)
        return int(found.ufr)

    def value(self, data: bytes) -> Valuation:
        """The valuation of a case file with the UFR of this history, as if it stood in the file's UFR field.

        Raises Refused, in this order: the number with which value() refuses the file, its own UFR included; that of ufr().
        """
        file = _given.file_bytes(data)
        return valued(_c.engine().value_with_months, file, len(file), *self._arguments())

    def _arguments(self) -> tuple[bytes, int, int]:
        """The history as C takes it."""
        return self._bytes, len(self._bytes), self._start

    def _found(self) -> Any:
        return _c.engine().ufr_of(*self._arguments())

    def _require_ring(self) -> None:
        """Of all refusals, that of another length or start comes first."""
        if self._found().refusal == HISTORY:
            raise Refused(HISTORY)


def _month_bytes(number: int) -> bytes:
    return _given.month(number).to_bytes(2, "big", signed=True)
