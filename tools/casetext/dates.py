"""Dates and months as the labels of sheets: those that are taken, and those that were likely meant for one."""

import re
from datetime import date

DAY, MONTH, YEAR = "(?:0?[1-9]|[12][0-9]|3[01])", "(?:0?[1-9]|1[0-2])", "(?:19|20)[0-9]{2}"
MONTH_NAMES = {name: number for number, names in enumerate((
    "jan januari january", "feb februari february", "mrt maart mar march", "apr april", "mei may", "jun juni june",
    "jul juli july", "aug augustus august", "sep sept september", "okt oktober oct october", "nov november",
    "dec december"), 1) for name in names.split()}
NAME = f"(?:{'|'.join(MONTH_NAMES)})"

# ---------------------------------------------------------------- what is taken

DATE_FORMS = [re.compile(form) for form in (
    rf"(?P<year>{YEAR})(?P<mark>[-/.])(?P<month>{MONTH})(?P=mark)(?P<day>{DAY})",  # 2012-09-03
    rf"(?P<day>{DAY})(?P<mark>[-/.])(?P<month>{MONTH})(?P=mark)(?P<year>{YEAR}|[0-9]{{2}})",  # 03-09-2012, 3-9-12
    rf"(?P<year>{YEAR})(?P<month>0[1-9]|1[0-2])(?P<day>0[1-9]|[12][0-9]|3[01])")]  # 20120903


def full_year(year: int) -> int:
    """A year of two digits is in 1970 to 2069."""
    return year if year > 99 else year + 1900 if year >= 70 else year + 2000


def date_form(label: str) -> re.Match | None:
    return next(filter(None, (form.fullmatch(label) for form in DATE_FORMS)), None)


def date_in(label: str) -> date | None:
    """The date that a label says; None also where its month has no such day."""
    found = date_form(label)
    try:
        return date(full_year(int(found["year"])), int(found["month"]), int(found["day"])) if found else None
    except ValueError:
        return None


def dates_in(labels: list[str]) -> list[date] | None:
    """The dates that labels say; None where one says none, or that of another."""
    found = [day for label in labels if (day := date_in(label))]
    return found if len(set(found)) == len(labels) else None


# ---------------------------------------------------------------- what was meant

SUCH = "such as 2012-09-03"
DATE_SHAPE = r"[0-9]{4}[-/.][0-9]{1,2}[-/.][0-9]{1,2}|[0-9]{1,2}[-/.][0-9]{1,2}[-/.](?:[0-9]{4}|[0-9]{2})"
MONTH_FIRST = re.compile(rf"(?P<month>{MONTH})(?P<mark>[-/.])(?P<day>{DAY})(?P=mark)(?P<year>{YEAR}|[0-9]{{2}})")
OTHER_FORMS = [(re.compile(form, re.IGNORECASE), advice) for form, advice in (
    (rf"[0-9]{{4}}(?P<mark>[-/.]){MONTH}(?P=mark){DAY}|{DAY}(?P<other>[-/.]){MONTH}(?P=other)[0-9]{{4}}",
     "of a year from 1900 to 2099"),
    (r"[2-7][0-9]{4}(?:[.,]0+)?",
     f"{SUCH}; this looks like a spreadsheet's number of a day: give these cells the format of a date"),
    (rf"{DAY}\.?[-/. ]?{NAME}\.?(?:[-/. ]?[0-9]{{2,4}})?|{NAME}\.?[-/. ]{DAY}(?:,? ?[0-9]{{4}})?",
     f"with its month as a number, {SUCH}"),
    (rf"(?:{DATE_SHAPE})(?:[T ]+[0-9]{{1,2}}:[0-9]{{2}}(?::[0-9]{{2}}(?:[.,][0-9]+)?)?(?: ?[ap]m)?Z?)", f"without a time of day, {SUCH}"),
    (rf"[a-z]{{2,10}}\.?,? (?:{DATE_SHAPE})", f"without the name of the day, {SUCH}"),
    (r"[0-9]{4}([-/.])[0-9]{1,2}\1[0-9]{1,2}|[0-9]{1,2}([-/.])[0-9]{1,2}\2(?:[0-9]{4}|[0-9]{2})", SUCH))]


def meant_for(label: str) -> str | None:
    """How to write a label that is no date but was likely meant for one; None of any other, and of a date."""
    if date_form(label):
        return None if date_in(label) else "and there is no such day"
    us = MONTH_FIRST.fullmatch(label)
    if us:
        shown = f"{full_year(int(us['year']))}-{int(us['month']):02}-{int(us['day']):02}"
        return f"the day before the month; if the month stands first here, write all the dates as {shown}"
    return next((advice for form, advice in OTHER_FORMS if form.fullmatch(label)), None)
