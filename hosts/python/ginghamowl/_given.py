"""What callers give: whole numbers, and bytes, which the engine accepts or refuses."""

from . import _library as _c
from ._words import NO_REFUSAL, SENTENCES


class Refused(Exception):
    """A case file, a case, or a call with a rolling window or a history of months that is refused.

    `number` is the refusal, and the text says what is wrong.
    """

    def __init__(self, number: int) -> None:
        super().__init__(f"refused, {number}: {SENTENCES.get(number, NO_REFUSAL)}")
        self.number = number

    def __reduce__(self) -> tuple[type, tuple[int]]:
        return type(self), (self.number,)


def refusal(data: bytes) -> int:
    """The number that a case file is refused with, 1 to 12; 0 where it is accepted."""
    file = file_bytes(data)
    return int(_c.engine().refusal(file, len(file)))


def accepted(data: bytes) -> bytes:
    """The file; raises Refused where the engine refuses it."""
    file = file_bytes(data)
    number = refusal(file)
    if number:
        raise Refused(number)
    return file


def file_bytes(data: bytes) -> bytes:
    return as_bytes(data, "a case file")


def as_bytes(data: bytes, what: str) -> bytes:
    """What is given, as bytes; a bytearray or a memoryview serves as well, a text or a number does not."""
    if not isinstance(data, (bytes, bytearray, memoryview)):
        raise TypeError(f"{what} is bytes, not {type(data).__name__}")
    return bytes(data)


def require_int(number: int, what: str) -> None:
    if isinstance(number, bool) or not isinstance(number, int):
        raise TypeError(f"{what} is an int, not {type(number).__name__}")


def unsigned(number: int, what: str) -> int:
    """The number for C, which has 64 bits for it. One that does not fit is out of limits, and so is the largest in its place."""
    require_int(number, what)
    return number if 0 <= number < 2 ** 64 else 2 ** 64 - 1


def rate(number: int) -> int:
    """The rate for C, which has 32 bits for it. One that does not fit is out of limits, and so is the end in its place."""
    return _signed(number, "a rate", 32)


def month(number: int) -> int:
    """The month for a history, which has 16 bits for it, likewise."""
    return _signed(number, "a month", 16)


def _signed(number: int, what: str, bits: int) -> int:
    require_int(number, what)
    return min(max(number, -2 ** (bits - 1)), 2 ** (bits - 1) - 1)
