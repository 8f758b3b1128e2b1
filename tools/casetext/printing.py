"""A case as TOML in the units that people say, and the empty case."""

from ginghamowl._shown import decimal_text

from .fields import (AMOUNT_NUMBERS, DEFAULT_EQUITY_CORRELATION, DEFAULT_UFR, EQUITY_CORRELATION_NUMBER, FLOW_NUMBER, MOST_BONDS,
                     MOST_DAYS, MOST_PENSION, PEOPLE_NUMBERS, RATE_NUMBER, SHOCK_NUMBERS, TERMS, UFR_NUMBER, Case)
from .units import COUNT, MONEY, RATE, SHARE, Number, shown


def to_toml(case: Case) -> str:
    """The case as TOML, which gives the same case again."""
    lines = ["# Each number carries its unit; flows and amounts are in euros.", ""]
    if case.ufr is not None:
        lines += [f'ufr = "{shown(case.ufr, RATE)}"', ""]
    percent = case.days_field.rate.kind.units[0]
    lines += [f"[days]  # zero rates of the terms 1 to {TERMS}, a list for each day", form_line(case), f'unit = "{percent.name}"',
              "rates = ["]
    for place, day in enumerate(case.days, 1):
        lines += [f"  [  # day {place}", *rows([decimal_text(rate, percent.size) for rate in day], "    "), "  ],"]
    lines += ["]", "", "[flows]  # in euros, from term 1 on"]
    for name, flows in (("pension", case.pension), ("bonds", case.bonds)):
        if flows is not None:
            lines += [f"{name} = [", *rows([str(flow) for flow in flows], "  "), "]"]
    for name, numbers, values in (("amounts", AMOUNT_NUMBERS, case.amounts), ("shocks", SHOCK_NUMBERS, case.shocks),
                                  ("people", PEOPLE_NUMBERS, case.people)):
        if values is not None:
            lines += ["", f"[{name}]{'  # in euros' if name == 'amounts' else ''}",
                      *(f"{number.name} = {value_text(values[number.name], number)}" for number in numbers)]
        if name == "shocks" and case.equity_correlation is not None:
            lines.append(equity_line(case.equity_correlation))
    return "\n".join(lines) + "\n"


def form_line(case: Case) -> str:
    """Which days field the file has: four bytes are asked for by the key, two need none."""
    field = case.days_field
    said = f"# rates to {shown(1, field.rate.kind)}, in the days field of bit {field.bit}"
    return said if case.rate_bytes == 2 else f"rate_bytes = {case.rate_bytes}  {said}"


def equity_line(correlation: int) -> str:
    """The correlation that a field of its own holds; the comment tells it from the one that stands above it."""
    number = EQUITY_CORRELATION_NUMBER
    return (f"{number.name} = {value_text(correlation, number)}"
            "  # between the four equity and property classes, in the field of bit 8")


def value_text(value: int, number: Number) -> str:
    return str(value) if number.kind in (COUNT, MONEY) else f'"{shown(value, number.kind)}"'


def rows(texts: list[str], indent: str) -> list[str]:
    """Ten to a line, with commas."""
    return [indent + ", ".join(texts[i:i + 10]) + "," for i in range(0, len(texts), 10)]


# ---------------------------------------------------------------- the empty case

def empty(number: Number) -> str:
    """A line of the empty case: the key, its units and its limits."""
    how = number.advice.removeprefix("write ").removeprefix("it ")
    return f'{number.name} = ""  # {how}; {number.limits}'


def template() -> str:
    """An empty case with every key. It is refused until each value is filled in."""
    lines = f"""\
# An empty case. Put each value in the place of its "" or []; a number with a unit stands in quotes. What is marked optional
# may be deleted.

# Optional; without it the UFR is {shown(DEFAULT_UFR, RATE)}.
{empty(UFR_NUMBER)}

# Zero rates of the terms 1 to {TERMS}, on 1 to {MOST_DAYS} days; each {RATE_NUMBER.limits}. They stand in a CSV file, or here:
#   rates = [[0.226, 0.246, ...], ...], a list of {TERMS} for each day.
# A key for rates of up to seven decimals, as 0.0022613 is, which is 0.22613 %:
#   rate_bytes = 4: rates to 0.00001 %, in four bytes each; without it they are to 0.001 %, in two bytes each
# Terms and dates are recognised as labels. Three keys for a sheet with other labels, or that could be read in two ways:
#   lines = "days" or "terms": what a line of the sheet is
#   header = true or false: whether its first line is a header
#   labels = true or false: whether its first column is labels
[days]
# The unit of rates that carry none: "%", "bp", "fraction" (0.00226 is 0.226 %), or "steps" of 0.001 % in two bytes.
unit = ""  # optional where each rate carries its own
csv = ""  # the name of the CSV file, beside this file

# Flows from term 1 on, in whole euros; each {FLOW_NUMBER.limits}. Here, or in a CSV file:
#   pension_csv = "pension.csv" and bonds_csv = "bonds.csv", with a term and its flow in each line.
[flows]
pension = []  # 1 to {MOST_PENSION} flows, such as [{FLOW_NUMBER.example}, {FLOW_NUMBER.example}]
bonds = []  # 1 to {MOST_BONDS} flows; optional; without it there are none

# Optional, as a whole; without this table all eight are 0. Euros may stand without quotes and unit.
[amounts]
{{amounts}}

[shocks]
{{shocks}}
# Optional; without it this is {shown(DEFAULT_EQUITY_CORRELATION, SHARE)}: mature, emerging and private equity and property
# fall together, and S2 is the sum of their losses. Lower gives relief for spread over these four, down to 0 %.
# It is their correlation with each other; that of interest rates with all four is the key correlation above.
{empty(EQUITY_CORRELATION_NUMBER)}

[people]
{{people}}
"""
    return lines.format(**{name: "\n".join(map(empty, numbers)) for name, numbers in (
        ("amounts", AMOUNT_NUMBERS), ("shocks", SHOCK_NUMBERS), ("people", PEOPLE_NUMBERS))})
