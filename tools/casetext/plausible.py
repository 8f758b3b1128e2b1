"""Warnings of a case and of a history of months, by the rules of the Python package (hosts/python/ginghamowl/_plausible.py)."""

import ginghamowl
from ginghamowl._plausible import RULES, About, Looked, Rule, warnings

from .fields import AMOUNT_NUMBERS, DEFAULT_EQUITY_CORRELATION, DEFAULT_UFR, Case
from .months import Months

PACKAGE_NAMES = {"private": "private_equity"}  # where the package has another name for an amount than a text


def warnings_of(case: Case, months: Months | None = None) -> list[str]:
    """What is implausible about an accepted case, a sentence each; the months are those whose UFR takes the place of its own."""
    looked = Looked(in_package(case), months.rates if months else None, case.dates, months.last if months else None)
    return warnings(looked, About.CASE)


def month_warnings(months: Months) -> list[str]:
    """What is implausible about the months of a history, a sentence each."""
    return warnings(Looked(months=months.rates), About.MONTHS)


def in_package(case: Case) -> ginghamowl.Case:
    """The case as the Python package has it, where an absent field has its meaning."""
    amounts = case.amounts or {number.name: 0 for number in AMOUNT_NUMBERS}
    return ginghamowl.Case(DEFAULT_UFR if case.ufr is None else case.ufr, case.days, case.pension, case.bonds or [],
                           ginghamowl.Amounts(**{PACKAGE_NAMES.get(name, name): amount for name, amount in amounts.items()}),
                           ginghamowl.Shocks(**case.shocks, equity_correlation=equity_correlation(case)), ginghamowl.People(**case.people),
                           ginghamowl.DaysForm(case.rate_bytes))


def equity_correlation(case: Case) -> int:
    """The correlation between the equity classes, in thousandths, also where the case has no field for it."""
    return DEFAULT_EQUITY_CORRELATION if case.equity_correlation is None else case.equity_correlation


def rules() -> str:
    """The table of rules: what each measures, where it warns, and what it then asks."""
    return "".join(f"{rule.key}\n    {thresholds(rule)}: {rule.slip}\n" for rule in RULES)


def thresholds(rule: Rule) -> str:
    both = ("below", rule.least), ("above", rule.most)
    return " or ".join(f"{word} {rule.say(threshold)}" for word, threshold in both if threshold is not None)
