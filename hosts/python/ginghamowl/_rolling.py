"""A rolling window of days: the oldest is dropped, and each evening's is added."""

from collections.abc import Sequence
from typing import Any

from . import _library as _c
from ._case import Case, DaysForm, arguments, days_of
from ._given import Refused, as_bytes, rate
from ._library import DAY_RATES, WINDOW_BYTES, WINDOW_DAYS
from ._valuation import Valuation, valued

DAMAGED = 27  # the refusal that comes before all others


class RollingWindow:
    """Up to 70 trading days, and beside them the sum of each term's rates. A new one holds no day.

    Its rates have two bytes and are in steps of 0.00001: there is no window of days in four bytes.

    add() and drop() change the window, and where a call raises it changes nothing. (The window of Valuation.window_point is
    another thing: a screen that shows a valuation.)

    The window is the struct ginghamowl_rolling_window of the header. to_bytes() gives its bytes, which may be kept in a file, and
    from_bytes() takes any: where they are damaged, each call raises Refused with 27. Windows are equal whose bytes are. Two that
    hold the same days are worth the same, and may still differ in where the oldest stands and in what lies in free slots: compare
    their days().
    """

    def __init__(self) -> None:
        self._bytes = bytes(_c.engine().rolling_empty())

    @classmethod
    def from_bytes(cls, data: bytes) -> "RollingWindow":
        """The window of these bytes, whatever they are; raises ValueError where their number is not WINDOW_BYTES."""
        given = as_bytes(data, "a rolling window")
        if len(given) != WINDOW_BYTES:
            raise ValueError(f"a rolling window has {WINDOW_BYTES} bytes, not {len(given)}")
        window = cls()
        window._bytes = given
        return window

    def to_bytes(self) -> bytes:
        """The bytes of the window, which may be kept in a file. Those of each number are in the machine's order."""
        return self._bytes

    def __eq__(self, other: object) -> bool:
        return self._bytes == other._bytes if isinstance(other, RollingWindow) else NotImplemented

    def __len__(self) -> int:
        """How many days the window holds. Raises Refused with 27 for a damaged window."""
        return int(self._undamaged().count)

    def __bool__(self) -> bool:
        """True, also of a window that holds no day and of a damaged one.

        So `window or RollingWindow()` and `if window` ask whether there is a window, as they did before it had a length: they neither
        put another in place of an empty one nor raise. `len(window) == 0` asks for days.
        """
        return True

    def __repr__(self) -> str:
        try:
            window = self._undamaged()
        except Refused:
            return "<RollingWindow: damaged>"
        if not window.count:
            return f"<RollingWindow: no day of {WINDOW_DAYS}>"
        newest = (window.start + window.count - 1) % WINDOW_DAYS
        return f"<RollingWindow: {window.count} of {WINDOW_DAYS} days, oldest in slot {window.start}, newest in slot {newest}>"

    def add(self, day: Sequence[int]) -> None:
        """Adds a day as the newest: the rates of the terms 1 to 60, in steps of 0.00001.

        Raises Refused, in this order: 27 for a damaged window, 15 for one of 70 days, 5 for a rate out of limits. A number that
        is no int raises TypeError, and a day that has not 60 rates ValueError, before the engine is asked.
        """
        rates = [rate(number) for number in day]
        if len(rates) != DAY_RATES:
            raise ValueError(f"a day has {DAY_RATES} rates, not {len(rates)}")
        self._become(_c.engine().rolling_add(self._struct(), _c.HostDay((_c.c_int32 * DAY_RATES)(*rates))))

    def drop(self) -> None:
        """Drops the oldest day. Raises Refused: 27 for a damaged window, then 16 for one that holds no day."""
        self._become(self._dropped())

    def days(self) -> tuple[tuple[int, ...], ...]:
        """The days held, oldest first, as a Case has them in two bytes. Raises Refused with 27 for a damaged window.

        The engine judges the window, and the days of one that is not damaged are taken out here. A case takes them with a `days_form`
        of TWO_BYTES only.
        """
        window = self._undamaged()
        places = [DAY_RATES * ((window.start + day) % WINDOW_DAYS) for day in range(window.count)]
        return days_of((window.rates[place:place + DAY_RATES] for place in places), DaysForm.TWO_BYTES)

    def value(self, case: Case) -> Valuation:
        """The valuation of a case with the days of this window in place of its own.

        It is what value() gives of a file with these days, and the other fields of the case. The case's own days may be in four bytes.
        Raises Refused, in this order: 27 for a damaged window; the number with which Case.save() refuses the case, its own days
        included; 4 for a window that holds no day; 6 for its days.
        """
        return valued(_c.engine().rolling_value, self._struct(), *arguments(case))

    def _struct(self) -> Any:
        return _c.HostRollingWindow.from_buffer_copy(self._bytes)

    def _undamaged(self) -> Any:
        """The struct of the window, which the engine judges; raises Refused with 27 where it is damaged."""
        if self._dropped().refusal == DAMAGED:
            raise Refused(DAMAGED)
        return self._struct()

    def _dropped(self) -> Any:
        """What dropping the oldest day gives. Of all refusals, damage comes first."""
        return _c.engine().rolling_drop(self._struct())

    def _become(self, changed: Any) -> None:
        if changed.refusal:
            raise Refused(changed.refusal)
        self._bytes = bytes(changed.window)
