"""What a file looks like that is no case file, and what to do with it.

An accepted case file begins with a byte 0 or 1, and nothing that is told here does. So no accepted file is taken for something else,
and a damaged one only where its first byte is damaged too.
"""

import codecs
import re

LOOKED_AT = 2 ** 14  # this many of the first bytes tell a text from other bytes
MOSTLY = 0.75  # so large a part of a text is ASCII; of bytes that are letters of Windows-1252 by chance, less than half is

SHEETS = "save its sheets as CSV files, which a text case names (tools/casefile --template prints an empty one)"
TEMPLATE = "tools/casefile --template prints an empty text case, which ./value values when it is filled in"

#: How files of other kinds begin, what they look like, and what to do.
BEGINNINGS = (
    (b"PK\x03\x04", "a workbook (.xlsx) or another zip archive", SHEETS),
    (b"\xd0\xcf\x11\xe0\xa1\xb1\x1a\xe1", "a workbook (.xls) or another file of an old office program", SHEETS),
    (b"%PDF-", "a PDF", TEMPLATE),
    (b"\x1f\x8b\x08", "a file packed by gzip", "unpack it first, with gunzip"),
)

TABLE = re.compile(r"\[\s*(days|flows|amounts|shocks|people)\s*\]")
KEY = re.compile(r"[A-Za-z_][\w-]*\s*=")
NUMBER = re.compile(r"\d[\d.,\s]*")


def hint(data: bytes) -> str | None:
    """What a refused file looks like and what to do, in one sentence of ASCII; None where that cannot be told."""
    told = _by_beginning(data) or _by_text(_text(data[:LOOKED_AT]))
    return told and "this looks like {}, not like a case file: {}".format(*told)


def _by_beginning(data: bytes) -> tuple[str, str] | None:
    return next(((looks, advice) for beginning, looks, advice in BEGINNINGS if data.startswith(beginning)), None)


def _by_text(text: str | None) -> tuple[str, str] | None:
    if text is None:
        return None
    lines = [line.strip(" ") for line in text.splitlines() if line.strip()]
    if _is_toml(lines):
        return "a text case in TOML", ("./value NAME.toml values it, and ./value --toml NAME where its name ends otherwise; "
                                       "tools/casefile encode makes a case file of it")
    if _is_csv(lines):
        return "a CSV file", "a text case names the CSV files of its days and flows (tools/casefile --template prints an empty one)"
    return "a text", TEMPLATE


def _text(data: bytes) -> str | None:
    """The text that the bytes are, as far as they go; None where they are none."""
    utf_16 = data.startswith((codecs.BOM_UTF16_LE, codecs.BOM_UTF16_BE))
    texts = (_decoded(data, encoding) for encoding in (["utf-16"] if utf_16 else ["utf-8-sig", "cp1252"]))
    return next(filter(_is_text, texts), None)


def _decoded(data: bytes, encoding: str) -> str:
    """The text, empty where the bytes are none. They may end inside a character, which is left out then."""
    try:
        return codecs.getincrementaldecoder(encoding)().decode(data)
    except UnicodeDecodeError:
        return ""


def _is_text(text: str) -> bool:
    """Whether all are letters, digits, marks and blanks, a letter or a digit among them, and most are ASCII."""
    return (all(character.isprintable() or character in "\t\n\r\f\xa0\u202f" for character in text)
            and any(map(str.isalnum, text)) and sum(map(str.isascii, text)) >= MOSTLY * len(text))


def _is_toml(lines: list[str]) -> bool:
    """Whether a line begins a table of a case, or the first that is no comment has a key."""
    first = next((line for line in lines if not line.startswith("#")), "")
    return any(map(TABLE.match, lines)) or KEY.match(first) is not None


def _is_csv(lines: list[str]) -> bool:
    """Whether at least half of the lines have cells, and a number in one of them: prose has commas too."""
    separator = next((mark for mark in "\t;," if any(mark in line for line in lines)), None)
    return separator is not None and 2 * sum(_has_number(line.split(separator)) for line in lines) >= len(lines)


def _has_number(cells: list[str]) -> bool:
    return len(cells) > 1 and any(NUMBER.fullmatch(cell.strip(" \xa0\"'%\u20ac+-")) for cell in cells)
