"""Terms and computed statements as text of antt, from numbers, bytes and cases of tests/reference/reference.py."""

from itertools import groupby

from tests.reference.reference import AMOUNTS, LOWER, NO_SHOCKS, SHOCKS, UPPER

ENDS = ((LOWER, "low"), (UPPER, "high"))
PEOPLE = ("heads", "pension_age", "mean_age")
PRESENT = "ufr", "bonds", "amounts", "equity"  # the fields that a file need not have, in its order
SHORTEST_RUN = 4  # this many pairs of bytes, or numbers of a list, in a row are written as one


# ---------------------------------------------------------------- terms

def rows(items, most):
    """The items with ∷ between them, at most this many to a row."""
    return [" ∷ ".join(items[i:i + most]) for i in range(0, len(items), most)]


def short_list(items):
    return " ∷ ".join([str(item) for item in items] + ["[]"])


def long_list(items, most, indent):
    """A list over several rows."""
    return f"\n{indent}∷ ".join(rows([str(item) for item in items], most) + ["[]"])


def integer(z):
    return f"pos {z}" if z >= 0 else f"neg_ℤ (pos {-z})"


def fraction(x):
    return f"{x.numerator} // {x.denominator}"


def byte(value):
    return f"0x{value:02x}"


def run_at(data, at, width):
    """How often this many bytes at a place are there in a row."""
    first, count = data[at:at + width], 0
    while len(first) == width and data[at + width * count:at + width * (count + 1)] == first:
        count += 1
    return count


def concatenated(pieces):
    """One list of several pieces: terms, and lists of items, of which those in a row are written out together."""
    parts = []
    for written_out, run in groupby(pieces, lambda piece: isinstance(piece, list)):
        parts += ["(" + short_list(sum(run, [])) + ")"] if written_out else run
    return " ++ ".join(parts) or "[]"


RUNS = {2: "pairs", 4: "quads"}  # by the number of bytes that are repeated


def file_term(data, widths=(2,)):
    """A list of bytes; where two bytes are there several times in a row, as `pairs`, and four, where that is asked for, as `quads`."""
    pieces, at = [], 0
    while at < len(data):
        counted = [(width, run_at(data, at, width)) for width in widths]
        width, count = next(((width, count) for width, count in counted if count >= SHORTEST_RUN), (1, 1))
        repeated = data[at:at + width]
        pieces.append([byte(data[at])] if width == 1 else f"{RUNS[width]} {count} {' '.join(map(byte, repeated))}")
        at += width * count
    return concatenated(pieces)


def argument(term):
    """The term as an argument, in brackets if it needs them."""
    return term if " " not in term or term.startswith("(") and "++" not in term else f"({term})"


def list_term(values, term=str):
    """A list of numbers; where one is there several times in a row, as `replicate`."""
    runs = [(term(value), len(list(run))) for value, run in groupby(values)]
    return concatenated(f"replicate {count} {argument(value)}" if count >= SHORTEST_RUN else [value] * count for value, count in runs)


def given_term(case):
    """A case as it is handed in. `fields_of`, `amounts_of` and `shocks_of` take the numbers in order."""
    numbers = lambda name, values, absent: f"no_{name}" if values == absent else " ".join([f"{name}_of", *map(str, values.values())])
    amounts, shocks = numbers("amounts", case.amounts, dict.fromkeys(AMOUNTS, 0)), numbers("shocks", case.shocks, NO_SHOCKS)
    fields = f"fields_of {case.rate_bytes} {case.ufr} {argument(amounts)} {argument(shocks)} {case.heads} {case.pension_age} {case.mean_age}"
    lists = list_term(case.rates, integer), list_term(case.pension), list_term(case.bonds)
    return " ".join(["given", *map(argument, (fields, *lists))])


def day_or_name(day, names):
    """The 60 rates of a day by their name, if they have one."""
    return names.get(tuple(day)) or list_term(day, integer)


def ring_term(rates, names):
    """The rates of a ring of slots. Those of a slot by their name, if they have one; all others in a row are written as one list."""
    slots = [rates[at:at + 60] for at in range(0, len(rates), 60)]
    parts = []
    for name, run in groupby(slots, lambda slot: names.get(tuple(slot))):
        parts += [name for _ in run] if name else [list_term(sum(run, []), integer)]
    return " ++ ".join(parts)


def window_term(window, names):
    """A rolling window; `window_of` takes its numbers in order. names: of days, as tuples."""
    rates, sums = argument(ring_term(window.rates, names)), argument(day_or_name(window.sums, names))
    return f"window_of {window.count} {window.start} {rates} {sums}"


def present_term(*present):
    """Which of the fields that a file need not have are there."""
    return "record { " + "; ".join(f"{name} = {str(there).lower()}" for name, there in zip(PRESENT, present, strict=True)) + " }"


def record(fields, indent="  "):
    """A record literal, a field a line; fields is a list of (name, term)."""
    return "record {\n" + "".join(f"{indent}{name} = {term};\n" for name, term in fields) + indent[2:] + "}"


def day_term(day):
    if len(set(day)) == 1:
        return f"replicate {len(day)} ({integer(day[0])})"
    return "(" + "\n      ∷ ".join(rows([integer(rate) for rate in day], 10) + ["[]"]) + ")"


def case_term(case):
    """The case as a record, a field by its name."""
    deep = "    "
    days = "\n      ∷ ".join([day_term(day) for day in case.days] + ["[]"])
    return record([("rate_bytes", case.rate_bytes), ("ufr", case.ufr), ("days", days), ("pension", long_list(case.pension, 12, "      ")),
                   ("bonds", long_list(case.bonds, 12, "      ")),
                   ("amounts", record([(a, case.amounts[a]) for a in AMOUNTS], deep)),
                   ("shocks", record([(x, case.shocks[x]) for x in SHOCKS], deep)),
                   ("people", record([(x, getattr(case, x)) for x in PEOPLE], deep))])


def both_ends(term, bracket):
    """[term at low ≡ lower, term at high ≡ upper]; the end goes to the place of {e}."""
    return [f"{term.format(e=name)} ≡ {bracket[end]}" for end, name in ENDS]


# ---------------------------------------------------------------- declarations

def definition(name, kind, term, comment=None):
    head = f"-- {comment}\n" if comment else ""
    return f"{head}abbrev pub {name} : {kind}\n{name} =\n    {term}\n"


def case_definition(name, case, comment):
    return f"-- {comment}\nabbrev pub {name} : FileCase\n{name} = {case_term(case)}\n"


def proved(name, *parts):
    """A statement of parts (proposition, proof), each of which is computed."""
    propositions, proofs = zip(*parts)
    statement = propositions[0] if len(parts) == 1 else "\n    × ".join(f"({one})" for one in propositions)
    proof = proofs[0] if len(parts) == 1 else "(" + ", ".join(proofs) + ")"
    return f"{name} : {statement}\nunfolding all\n{name} = {proof}\n"


def computed(name, *equations):
    """A statement that both sides of each equation compute to the same."""
    return proved(name, *((equation, "refl") for equation in equations))


def fraction_part(term, x):
    """That a term is this fraction: neither has a denominator of 0, and crosswise they are the same."""
    return f"{term} ≐ {fraction(x)}", "(lit< tt, lit< tt, refl)"


def computed_fraction(name, term, x):
    return proved(name, fraction_part(term, x))


COMPARED = "lit≤ tt"  # the proof of a computed comparison
COMPARED_TWICE = f"({COMPARED}, {COMPARED})"


def holds(name, proposition, fields):
    """A record whose fields are computed comparisons; fields are their proofs by name."""
    proofs = "; ".join(f"{field} = {proof}" for field, proof in fields.items())
    return f"{name} : {proposition}\nunfolding all\n{name} = record {{ {proofs} }}\n"


def refuted(name, proposition, field):
    """That it does not hold, since one of its fields is false."""
    return f"{name} : {proposition} → ⊥\nunfolding all\n{name} near = not-le_of_lt (lit< tt) near.{field}\n"
