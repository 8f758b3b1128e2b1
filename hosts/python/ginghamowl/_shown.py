"""Numbers as people read them: exact, or marked where a decimal is rounded."""

from fractions import Fraction

YEARS, MONTHS = ("years", "year"), ("months", "month")


def decimal_text(value: int, size: int) -> str:
    """value ÷ size in decimals, exact; the size is a power of ten."""
    places = len(str(size)) - 1
    whole, rest = divmod(abs(value), size)
    decimals = f"{rest:0{places}}".rstrip("0") if rest else ""
    return ("-" if value < 0 else "") + str(whole) + ("." + decimals if decimals else "")


def in_decimals(value: Fraction, size: int) -> str:
    """A fraction in decimals of 1 ÷ size, a power of ten, marked where that is not exact."""
    units = round(size * value)
    return ("" if units == size * value else "about ") + decimal_text(units, size)


def six_decimals(value: int | Fraction) -> str:
    return in_decimals(Fraction(value), 1_000_000)


def counted(count: int, words: tuple[str, str]) -> str:
    """A count with its word, the plural first."""
    return f"{count} {words[1] if count == 1 else words[0]}"


def mean_percent(steps: int | Fraction) -> str:
    """A mean rate in percent, to six decimals, or to eight where six would show a whole step that it is not."""
    percent = Fraction(steps, 1_000)
    looks_whole = round(1_000_000 * percent) % 1_000 == 0
    return f"{in_decimals(percent, 100_000_000 if looks_whole else 1_000_000)} %"


def rate_percent(steps: int) -> str:
    return f"{decimal_text(steps, 1_000)} %"


def share_percent(thousandths: int) -> str:
    return f"{decimal_text(thousandths, 10)} %"


def years(tenths: int) -> str:
    number = decimal_text(tenths, 10)
    return f"{number} {YEARS[number == '1']}"


def age(months: int) -> str:
    """795 months are 66 years 3 months."""
    whole, rest = divmod(months, 12)
    parts = [counted(whole, YEARS)] if whole or not rest else []
    return " ".join(parts + [counted(rest, MONTHS)] if rest else parts)


def euros(amount: int) -> str:
    return f"{amount:,} {'euro' if amount == 1 else 'euros'}"
