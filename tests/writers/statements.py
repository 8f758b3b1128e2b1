"""What all writers of computed statements share: names of the definitions, makers of terms, and statements about files, cases and curves that
more than one of them writes."""


from tests.inputs import examples, files, windows
from tests.reference import reference, rolling
from tests.reference.reference import AMOUNTS, LOWER, UPPER, Exact, ExactCurve, Rounded, encode, refusal
from tests.writers.antt import (argument, both_ends, case_definition, computed, computed_fraction, definition, file_term, given_term,
                                integer, list_term, present_term, record, short_list)

VERDICTS = {reference.DEKKINGSTEKORT: "Dekkingstekort", reference.RESERVETEKORT: "Reservetekort",
            reference.VRIJ_VERMOGEN: "VrijVermogen"}  # of the exact working
NAMES = {1: "EndsEarly", 2: "BytesFollow", 3: "WrongFields", 4: "DayCount", 5: "Rate", 6: "Forward", 7: "FlowCount", 8: "Flow", 9: "Ufr",
         10: "Amount", 11: "Shock", 12: "People", 13: "Buffers", 14: "Room", 15: "WindowFull", 16: "WindowEmpty", 17: "History",
         18: "Month", 19: "MonthsUfr", 27: "Damaged"}  # of refusals, as the definitions have them

WRITTEN = """\
-- tests/writers wrote this file, from the reference in Python, which was written without the engine's code (tests/reference): change
-- that, not this. Assumes nothing.
"""

TITLES = {
    "finer": "A fund with one four-byte day, no rate of which is a whole step, and another number in every field.",
    "bent": "A bent curve of three days: the rates rise, fall, rise and fall with the term, and the short ones are negative.",
    "up": "A fund with another number in every field, whose bonds are longer than its pensions: the up curve decides S1.",
    "down": "A fund with another number in every field, whose pensions outweigh its bonds: the down curve decides S1. S5 exceeds the credit.",
    "deepest": "A fund with the lowest rates, the largest down shift and one bond flow, at term 60: no bond factor is larger than that of the down curve.",
    "long": "A fund with 120 pension and 60 bond flows and both shifts. Most of its large flows lie past term 60, so that WL and WB are large.",
}

BOTH = 2, 4  # widths of the runs in the bytes of files that have four-byte rates
RISING = [7 * t for t in range(1, 61)]  # the rates of a day, none like the other


# ---------------------------------------------------------------- terms

def ends(one_end):
    return [one_end(LOWER), one_end(UPPER)]


def integers(numbers):
    return list_term(numbers, integer)


def four_term(data):
    return file_term(data, BOTH)


def listed(rows):
    """A list, an item a line, with what it is as a comment; rows is a list of (what, term)."""
    label = lambda text: text.replace('"', "'")
    return "\n    ∷ ".join([f"{term}  -- {label(what)}" for what, term in rows] + ["[]"])


def strings(lines):
    return "\n    ∷ ".join([f'"{line}"' for line in lines] + ["[]"])


# ---------------------------------------------------------------- records and lists of refusals

LETTERS = "abcdefghijklm"


def maker(name, kinds, fields, comment):
    """A function that makes a record of its arguments, which are called a, b, c and so on."""
    letters = " ".join(LETTERS[:len(kinds) - 1])
    return f"-- {comment}\nabbrev pub {name} : {' → '.join(kinds)}\n{name} {letters} = {record(fields)}\n"


def number_table(name, rows, what):
    """Refusals that are computed; rows is a list of (what, term, number)."""
    terms = listed([(row, term) for row, term, _ in rows])
    return [definition(f"{name}_refusals", "List ℕ", terms, what),
            computed(f"{name}-refusals", f"{name}_refusals ≡ {short_list(number for *_, number in rows)}")]


# ---------------------------------------------------------------- files and their parts

def read_statements(name, case, data):
    """The file, its case by name, and that the case gives the file. The other way is `case_statement`, which takes longer."""
    present = present_term(True, bool(case.bonds), True, case.shocks["equity_correlation"] != reference.DEFAULT_EQUITY_CORRELATION)
    return [definition(f"{name}_file", "List ℕ", file_term(data), TITLES[name]),
            case_definition(name + "_case", case, "the case that it holds"),
            computed(f"{name}-layout", f"file_of ({present}) {name}_case ≡ {name}_file")]


def case_statement(name):
    """That the file holds the case."""
    return computed(f"{name}-case", f"case_of {name}_file ≡ {name}_case")


def group_statement(name, what, rows, widths=(2,)):
    """The files of a group, and the list of their refusals."""
    terms = listed([(row, argument(file_term(data, widths))) for row, data in rows])
    numbers = short_list([refusal(data) for _, data in rows])
    return (definition(f"{name}_files", "List (List ℕ)", terms, what)
            + f"\n{computed(f'{name}-refusals', f'map refusal {name}_files ≡ {numbers}')}")


def part_term(data):
    """The part of a file that holds its rates."""
    offset, length = reference.rates_part(data)
    return file_term(data[offset:offset + length], BOTH)


def place_equations(name, data, days):
    """Where the days of a file are, and how many."""
    return [f"days_at {name} ≡ {reference.rates_part(data)[0] - 1}", f"day_count {name} ≡ {days}"]


def part_statement(days, rate_bytes=2):
    """The rates' part of a file that has a UFR, by its content."""
    data = encode(examples.c1(ufr=4_321, days=days, amounts=dict.fromkeys(AMOUNTS, 0), rate_bytes=rate_bytes), True, False, False)
    offset, length = reference.rates_part(data)
    return (definition("part_file", "List ℕ", file_term(data), "A file with a UFR, and the part of it that holds the rates.")
            + f"\n{computed('rates-part', f'rates_part part_file ≡ {file_term(data[offset:offset + length])}')}")


def plain_part_statements(rate_bytes):
    """The rates' part of a file of two days without any optional field. That nothing refuses the file is not computed: it takes longer."""
    days = [RISING, [1_300] * 60]
    data = encode(examples.c1(days=days, amounts=dict.fromkeys(AMOUNTS, 0), rate_bytes=rate_bytes), False, False, False)
    assert refusal(data) == 0
    return [definition("plain_file", "List ℕ", file_term(data, BOTH), "A file of two days without any optional field, which is accepted."),
            computed("plain-part", *place_equations("plain_file", data, len(days)), f"rates_part_after None plain_file ≡ {part_term(data)}")]


def listing_statement(name, data):
    return [definition(f"{name}_listing", "List String", strings(reference.listing(data).decode().splitlines())),
            computed(f"{name}-listing", f"listing (answer_of (valuation_of 240 240 {name}_file)) ≡ text {name}_listing")]


def rewriting_statement(name, data):
    return computed(name, f"rewritten_file {argument(four_term(data))} ≡ {four_term(files.rewritten(data))}")


# ---------------------------------------------------------------- cases that are saved

def cases_definition(name, rows, what):
    return definition(name, "List FileCase", listed([(row, given_term(given)) for row, given in rows]), what)


def case_group(name, what, rows):
    """The cases of a group, and the list of their refusals."""
    numbers = short_list([reference.case_refusal(given) for _, given in rows])
    return [cases_definition(f"{name}_cases", rows, what), computed(f"case-{name}", f"map case_refusal {name}_cases ≡ {numbers}")]


def after_equation(name, given, held):
    """What a buffer that held these bytes holds after the call."""
    return f"saved_after {name} {argument(file_term(held))} ≡ {file_term(reference.save(given, held).after)}"


def answer_equation(name, given, room):
    """What a call with a buffer of this length answers."""
    saved = reference.save(given, bytes(room))
    answer = f"Err {NAMES[saved.refusal]}" if saved.refusal else f"Ok {saved.written}"
    return f"save_answer {name} {room} ≡ {answer}"


# ---------------------------------------------------------------- curves and verdicts

def verdict_statement(name, term, case):
    return computed(f"{name}-verdicts", f'word (Rounded.verdict {term}) ≡ ascii "{Rounded(case).verdict}"',
                    f"Exact.verdict {term} ≡ {VERDICTS[Exact(case).verdict]}")


def factor_statement(name, on, t, case, shift=0):
    """The rounded factor of a bond flow at term t, on the curve that is called so."""
    N, P = reference.points(case, shift)
    return computed(f"{name}-unadjusted-{t}", *both_ends(
        f"Rounded.unadjusted {on} {{e}} {t}", ends(lambda end: reference.unadjusted_factor(N, P, t, end))))


def exact_factor_statement(name, on, t, case, shift=0):
    return computed_fraction(f"{name}-exact-unadjusted-{t}", f"Exact.unadjusted {on} {t}", ExactCurve(case, shift).bond_factor(t))


def rate_statement(name, on, rounded, t, of=("low", "high")):
    """The zero rate of a term, on the curve that is called so."""
    bracket = dict(zip(("low", "high"), rounded.zero_rates[t]))
    return computed(f"{name}-zero-rate-{t}", *(f"Rounded.zero_rate {on} {end} {t} ≡ {integer(bracket[end])}" for end in of))


# ---------------------------------------------------------------- a rolling window

def finer_in_window():
    """Its listing; the arguments of a valuation into buffers all of whose entries are 7, and both buffers afterwards."""
    given = reference.given_of(examples.finer())
    case = rolling.case_with(given, rolling.days_held(windows.FLAT))
    lines = reference.listing(encode(case, *reference.needed_fields(case))).decode().splitlines()
    valued = rolling.value(windows.FLAT, given, [7] * 240, [7] * 240)
    return lines, f"flat_days finer_case {argument(list_term([7] * 240))} {argument(integers([7] * 240))}", valued.factors, valued.rates
