"""The correlation between the equity classes: its field in a file (crates/model/proofs/EquityCases.antt, and with all its refusals
crates/refusals/proofs/EquityField.antt) and in what is saved (crates/savingmodel/proofs/EquityCases.antt), and S2, S and the verdict
(crates/method/proofs/EquityCases.antt)."""

from dataclasses import replace
from fractions import Fraction

from tests.inputs import examples, files, host_cases, limits, to_save
from tests.reference import reference
from tests.reference.reference import EQUITY as EQUITY_CLASSES
from tests.reference.reference import DEFAULT_EQUITY_CORRELATION, ONBESLIST, RESERVETEKORT, VRIJ_VERMOGEN, Exact, Rounded, encode
from tests.writers.antt import (COMPARED, COMPARED_TWICE, argument, both_ends, case_definition, computed, definition, fraction, fraction_part,
                                given_term, present_term, proved, short_list)
from tests.writers.statements import BOTH, VERDICTS, WRITTEN, cases_definition, four_term, group_statement, rewriting_statement

MODEL_HEAD = """\
-- The correlation between the equity classes in a file: what it is read as, how it is written, and its limit, as computed statements about the
-- definitions. Its other refusals are in the crate `refusals`.
""" + WRITTEN + """\
use Prim.Native.Nat.{ℕ}
use mathlib.Core.Path.{◌≡◌, refl}
use mathlib.Core.Bool.{true, false}
use mathlib.Core.List.{List, [], ◌∷◌, ◌++◌, map}
use lib.ListN.{replicate}
use lib.IntN.{pos}
use Rattle.model.specs.Case.{FileCase}
use Rattle.model.specs.Layout.{file_of, case_of}
use Rattle.model.specs.Refusals.{refusal}
use Rattle.model.proofs.Computing.{pairs, all}
"""

FIELD_HEAD = """\
-- The correlation between the equity classes in a file, with days of two and of four bytes: what it is read as, its refusals and its place in
-- the order of checks, as computed statements about the definitions.
""" + WRITTEN + """\
use Prim.Native.Nat.{ℕ}
use mathlib.Core.Path.{◌≡◌, refl}
use mathlib.Core.List.{List, [], ◌∷◌, ◌++◌, map}
use Rattle.model.specs.Layout.{case_of}
use Rattle.model.specs.Refusals.{refusal}
use Rattle.model.proofs.Computing.{pairs, all}
use Rattle.model.proofs.FourByteCases.{quads}
"""

SAVED_HEAD = """\
-- The correlation between the equity classes in what is saved: whether its field is needed, the length of the shortest file and what is read
-- back from it, and its place in the order of checks, as computed statements about the definitions.
""" + WRITTEN + """\
use Prim.Native.Nat.{ℕ}
use mathlib.Core.Path.{◌≡◌, refl}
use mathlib.Core.Bool.{true, false}
use mathlib.Core.List.{List, [], ◌∷◌, ◌++◌, map}
use lib.ListN.{length, replicate}
use lib.IntN.{pos}
use Rattle.model.specs.Case.{FileCase}
use Rattle.model.specs.Layout.{map_of, case_of}
use Rattle.savingmodel.specs.Saving.{given, needed, case_refusal, shortest}
use Rattle.savingmodel.proofs.Computing.{all}
use Rattle.savingmodel.proofs.SavedCases.{amounts_of, shocks_of, fields_of, no_amounts, no_shocks}
"""

FIGURES_HEAD = """\
-- The correlation between the equity classes: S2 of four losses none of which is like another; S2 and S of two funds, in both workings, and
-- with S2 the sum of their losses; funds on both sides of the second border; and a file that is rewritten. All of it as computed statements
-- about the definitions.
""" + WRITTEN + """\
use Prim.Native.Nat.{ℕ, ◌*◌}
use mathlib.Core.Path.{◌≡◌, refl}
use mathlib.Core.List.{[], ◌∷◌, ◌++◌}
use lib.Dec.{lit<, lit≤}
use lib.ListN.{replicate}
use lib.IntN.{pos}
use Rattle.arith.specs.Rounding.{low, high}
use Rattle.model.specs.Case.{FileCase}
use Rattle.model.specs.declared.figures.Verdict.TheVariants.{Dekkingstekort, Reservetekort, VrijVermogen}
use Rattle.method.specs.Fraction.{◌//◌, ◌≐◌, whole, ◌≤ʳ◌, ◌ʳ≤◌}
use Rattle.method.specs.Exact as Exact
use Rattle.method.specs.Rounded as Rounded
use Rattle.method.specs.EquityClasses.{summed_loss, summed_S², judge_by_fraction, summed_equity_loss, summed_buffer}
use Rattle.method.specs.FourBytes.{rewritten_file}
use Rattle.method.specs.Listing.{ascii, word}
use Rattle.model.proofs.Computing.{pairs}
use Rattle.method.proofs.Computing.{all}
use Rattle.method.proofs.Pinned.{up_case, down_case}
"""

EQUITY = "equity_correlation"
ENDS_AND_BETWEEN = (0, 1, 500, 999, DEFAULT_EQUITY_CORRELATION)


# ---------------------------------------------------------------- files

def small_file(thousandths, stands=True, rate_bytes=2):
    """The file of a small fund, with the field or without it."""
    return encode(replace(examples.four_classes(thousandths), rate_bytes=rate_bytes), False, False, True, stands)


def read_equation(data):
    """What a file is read as."""
    return f"(case_of {argument(four_term(data))}).shocks.{EQUITY} ≡ {reference.read(data).shocks[EQUITY]}"


def told(rows, *words):
    """The rows that say one of these words."""
    return [row for row in rows if any(word in row[0] for word in words)]


def one_of(rows, what):
    """The row of this name."""
    [row] = [row for row in rows if row[0] == what]
    return row


def two_byte_rows():
    return list(limits.equity_rows(limits.bits(limits.EQUITY) + limits.TO_PEOPLE[2:] + limits.people()))


def equity_read():
    """The field as it stands in a file, and a file without it."""
    rows = two_byte_rows()
    chosen = [one_of(rows, f"{thousandths}") for thousandths in (limits.MOST_EQUITY, limits.MOST_EQUITY + 1)]
    return "\n".join([MODEL_HEAD, computed("equity-read", read_equation(small_file(500)), read_equation(small_file(1_000, False))),
                      *written(500), group_statement("equity", "The most that may stand there, and one more.", chosen)])


def written(thousandths):
    """A case with the field, and its file, each made of the other."""
    case, data = examples.four_classes(thousandths), small_file(thousandths)
    return [case_definition("classes_case", case, f"A small fund whose equity classes have a correlation of {thousandths} thousandths."),
            computed("equity-written", f"file_of ({present_term(False, False, True, True)}) classes_case ≡ {four_term(data)}",
                     f"case_of {argument(four_term(data))} ≡ classes_case")]


# ---------------------------------------------------------------- crates/refusals/proofs/EquityField.antt

def rewritten_equations():
    """A file and its rewritten one are read as the same number, also where the field says what it might leave out."""
    old = [small_file(thousandths) for thousandths in (500, DEFAULT_EQUITY_CORRELATION)]
    for data in old:
        assert reference.read(data).shocks == reference.read(files.rewritten(data)).shocks
        yield read_equation(data)
        yield read_equation(files.rewritten(data))


def equity_field():
    two, four = list(limits.order_rows()), list(limits.four_order_rows())
    with_equity = "equity correlation"
    behind_days = list(limits.equity_rows(limits.TO_DAYS_WITH_EQUITY + limits.four(limits.FLAT)))
    without = [read_equation(small_file(DEFAULT_EQUITY_CORRELATION, False, rate_bytes)) for rate_bytes in (2, 4)]
    there = [read_equation(small_file(thousandths, True, rate_bytes)) for rate_bytes in (2, 4) for thousandths in (0, 1, 999, 1_000)]
    return "\n".join([
        FIELD_HEAD, computed("equity-field-read", *there, *without), computed("equity-field-rewritten", *rewritten_equations()),
        group_statement("equity-field", "The field behind the people: cut off, at its limits and past them.", two_byte_rows(), BOTH),
        group_statement("equity-order", "Two faults each, of files with two-byte days.", told(two, with_equity), BOTH),
        group_statement("equity-after-days", "The field behind four-byte days; and two faults each.",
                        [*behind_days, *told(four, with_equity)], BOTH)])


# ---------------------------------------------------------------- crates/savingmodel/proofs/EquityCases.antt

def classes(thousandths, rate_bytes=2):
    """The fund of the four classes, as it is handed in."""
    return reference.given_of(replace(examples.four_classes(thousandths), rate_bytes=rate_bytes))


def fund(thousandths, rate_bytes=2):
    return f"(classes_case {rate_bytes} {thousandths})"


def needed_equations():
    for thousandths in (0, 1, 999, DEFAULT_EQUITY_CORRELATION):
        needed = reference.needed_fields(classes(thousandths))[-1]
        yield f"(needed {fund(thousandths)}).equity ≡ {str(needed).lower()}"
        for rate_bytes in (2, 4):
            standing = int.from_bytes(reference.shortest(classes(thousandths, rate_bytes))[:2], "big")
            yield f"map_of {rate_bytes} (needed {fund(thousandths, rate_bytes)}) ≡ {standing:#x}"


def saved_equations():
    """Which are refused; the length of the shortest file, and that its case is the one that was handed in."""
    handed_in = (0, 1, 999, DEFAULT_EQUITY_CORRELATION, DEFAULT_EQUITY_CORRELATION + 1)
    refused = [reference.case_refusal(classes(thousandths)) for thousandths in handed_in]
    yield f"map case_refusal ({short_list(map(fund, handed_in))}) ≡ {short_list(refused)}"
    for thousandths in handed_in[:-1]:
        data = reference.shortest(classes(thousandths))
        assert reference.given_of(reference.read(data)) == classes(thousandths)
        yield f"length (shortest {fund(thousandths)}) ≡ {len(data)}"
        yield f"case_of (shortest {fund(thousandths)}) ≡ {fund(thousandths)}"


def handed_in_rows():
    """Two faults each, one of which is of this number, of both days fields; and 6, which comes behind it."""
    for given, faults in ((host_cases.SMALL, host_cases.FAULTS), (host_cases.SMALL_FOUR, host_cases.FOUR_BYTE_FAULTS)):
        yield from told(to_save.order_rows(given, faults), "equity correlation")
    yield "6 alone", host_cases.steep(1, 2, 12_001)


def equity_saved():
    rows = list(handed_in_rows())
    given = classes("c", "w")
    numbers = short_list(reference.case_refusal(given) for _, given in rows)
    return "\n".join([SAVED_HEAD,
                      f"-- A fund with rates of w bytes, whose equity classes have a correlation of c thousandths.\n"
                      f"abbrev pub classes_case : ℕ → ℕ → FileCase\nclasses_case w c = {given_term(given)}\n",
                      computed("equity-needed", *needed_equations()), computed("equity-saved", *saved_equations()),
                      cases_definition("handed_in", rows, "Its place in the order of a case that is handed in."),
                      computed("equity-order", f"map case_refusal handed_in ≡ {numbers}")])


# ---------------------------------------------------------------- crates/method/proofs/EquityCases.antt

CHANGES = f"""\
-- a fund with another correlation between its equity classes, and one with other cash
abbrev pub with_equity : ℕ → FileCase → FileCase
with_equity c k = record k {{ shocks = record k.shocks {{ {EQUITY} = c }} }}

abbrev pub with_cash : ℕ → FileCase → FileCase
with_cash c k = record k {{ amounts = record k.amounts {{ cash = c }} }}
"""


def with_equity(case, thousandths):
    return replace(case, shocks=case.shocks | {EQUITY: thousandths})


def with_cash(case, cash):
    return replace(case, amounts=case.amounts | {"cash": cash})


def class_statements():
    """S2 of four losses, both ends of the rounded one and the square of the exact one."""
    case = examples.four_classes(DEFAULT_EQUITY_CORRELATION)
    rounded, exact = [], []
    for thousandths in ENDS_AND_BETWEEN:
        term, other = f"(with_equity {thousandths} classes_case)", with_equity(case, thousandths)
        rounded += both_ends(f"Rounded.S2 {term} {{e}}", Rounded(other).S2)
        exact.append(fraction_part(f"Exact.S2² {term}", Exact(other).S2_squared))
    return [case_definition("classes_case", case, "Losses of 2,107, 4,983, 2,691 and 2,567 tenths of a cent, and no other."),
            computed("equity-rounded", *rounded), proved("equity-exact", *exact)]


def summed_parts(name, case):
    """What a fund has where S2 is the sum of its four losses: that sum, S and its square, and both ends of the rounded ones."""
    exact, rounded, falls = Exact(case), Rounded(case), case.shocks
    s2 = sum(exact.loss(one) for one in EQUITY_CLASSES)
    losses = reference.rounded_once(sum(case.amounts[one] * falls[f"{one}_fall"] for one in EQUITY_CLASSES), 10)
    small = exact.S3 ** 2 + exact.S4 ** 2 + exact.S5 ** 2 + exact.S6_squared
    square = exact.S1 ** 2 + s2 ** 2 + 2 * Fraction(falls["correlation"], 1_000) * exact.S1 * s2 + small
    S = reference.rounded_S([rounded.S1, losses, *(getattr(rounded, f"S{number}") for number in range(3, 7))], falls["correlation"])
    held = f"{name}_case.amounts {name}_case.shocks"
    ends = [*both_ends(f"summed_equity_loss {held} {{e}}", losses), *both_ends(f"summed_buffer {name}_case {{e}}", S)]
    return [*((equation, "refl") for equation in ends), fraction_part(f"summed_loss {held}", s2), fraction_part(f"summed_S² {name}_case", square)]


# A, L and S² as fractions: below the first border and at it, a hundredth below the second border and at it.
JUDGED = [(Fraction(2_099, 100), 20, Fraction(0)), (Fraction(21), 20, Fraction(0)), (Fraction(2_219, 100), 20, Fraction(121, 25)),
          (Fraction(2_220, 100), 20, Fraction(121, 25))]


def judged_equation(A, L, square):
    verdict = VERDICTS[reference.exact_verdict(A, Fraction(L), square)]
    return f"judge_by_fraction ({fraction(A)}) (whole {L}) ({fraction(square)}) ≡ {verdict}"


def small_losses():
    """Small funds, in which a cent of one loss is a cent of S: of the sum of the four, and of commodities."""
    classes = examples.four_classes(DEFAULT_EQUITY_CORRELATION)
    held, falls = dict.fromkeys(classes.amounts, 0) | {"commodities": 19}, classes.shocks | {"commodities_fall": 333}
    return classes, replace(classes, amounts=held, shocks=falls)


def small_statements():
    classes, commodities = small_losses()
    ends = [end for name, case in (("classes", classes), ("commodities", commodities)) for end, _ in summed_parts(name, case)[2:4]]
    return [case_definition("commodities_case", commodities, "A loss of 6,327 tenths of a cent on commodities, and no other."),
            computed("small-summed", *ends)]


def summed_statements():
    return [*small_statements(), *(proved(f"{name}-summed", *summed_parts(name, case)) for name, case in (("up", examples.up()), ("down", examples.down()))),
            computed("judged-by-fractions", *(judged_equation(*each) for each in JUDGED))]


def root_between(square):
    """The whole number of cents that the root of a number is at least, while it is below the next one."""
    least, above = 0, 1
    while square >= above * above:
        above *= 2
    while above - least > 1:
        middle = (least + above) // 2
        least, above = (middle, above) if square >= middle * middle else (least, middle)
    return least


def exact_parts(term, exact):
    """The square of S2, and S between two neighbouring whole cents, by its square, which holds a root."""
    cents, square = root_between(exact.S_squared), f"Exact.S² {term}"
    assert cents ** 2 <= exact.S_squared <= (cents + 1) ** 2
    return [fraction_part(f"Exact.S2² {term}", exact.S2_squared), fraction_part(f"({square}).under", exact.S_squared.radicand),
            (f"whole ({cents} * {cents}) ≤ʳ {square}", COMPARED), (f"{square} ʳ≤ whole ({cents + 1} * {cents + 1})", COMPARED_TWICE)]


def fund_statements(name, case):
    """S1, S2 and S of a fund with bonds, both shifts and a correlation between S1 and S2."""
    assert case.bonds and Exact(case).S1 > 0 and 0 < case.shocks["correlation"] < 1_000
    rounded, exact = [], []
    for thousandths in (0, 500, 999):
        term, other = f"(with_equity {thousandths} {name}_case)", with_equity(case, thousandths)
        worked = Rounded(other)
        for figure in ("S1", "S2", "S"):
            rounded += both_ends(f"Rounded.{figure} {term} {{e}}", getattr(worked, figure))
        exact += exact_parts(term, Exact(other))
    return [computed(f"{name}-equity-rounded", *rounded), proved(f"{name}-equity-exact", *exact)]


def least_cash(case):
    """The least cash with which the exact working says that there is free wealth."""
    least, enough = -1, 10 ** 11
    while enough - least > 1:
        middle = (least + enough) // 2
        least, enough = (least, middle) if Exact(with_cash(case, middle)).verdict == VRIJ_VERMOGEN else (middle, enough)
    return enough


def verdict_equations(term, case, cash, expected):
    """Both verdicts of a fund with that cash; expected is the rounded and the exact one, as the reason for this cash."""
    held, of = with_cash(case, cash), f"(with_cash {cash} {term})"
    rounded, exact = Rounded(held).verdict, Exact(held).verdict
    assert (rounded, exact) == expected
    return [f'word (Rounded.verdict {of}) ≡ ascii "{rounded}"', f"Exact.verdict {of} ≡ {VERDICTS[exact]}"]


def border_statement():
    """The same cash is enough at 500 and not at 1,000, where nothing is taken off S2."""
    half, whole = with_equity(examples.up(), 500), examples.up()
    cash, short, enough = least_cash(half), (RESERVETEKORT,) * 2, (VRIJ_VERMOGEN,) * 2
    term = "(with_equity 500 up_case)"
    return ("-- Cash on both sides of the second border at 500; at 1,000 the same cash is not enough.\n"
            + computed("equity-border", *verdict_equations(term, half, cash - 1, short), *verdict_equations(term, half, cash, enough),
                       *verdict_equations("up_case", whole, cash, short)))


def undecided_statement(name, term, case, cash, exact):
    """A fund on both sides of the second border, and with the cash between, which the rounded working leaves undecided."""
    return computed(name, *verdict_equations(term, case, cash - 1, (RESERVETEKORT,) * 2), *verdict_equations(term, case, cash, (ONBESLIST, exact)),
                    *verdict_equations(term, case, cash + 1, (VRIJ_VERMOGEN,) * 2))


def undecided_statements():
    """At 0, with an S1 and a correlation between S1 and S2: of the fund itself, where the exact figures do not reach the border, and of the
    first fund with a larger first pension flow where they reach it."""
    below = with_equity(examples.up(), 0)
    above = replace(below, pension=[below.pension[0] + 89, *below.pension[1:]])
    larger = f"with_equity 0 (record up_case {{ pension = {short_list(above.pension)} }})"
    return ["-- At 0, on both sides of the second border and undecided between, where the exact figures do not reach the border.\n"
            + undecided_statement("equity-undecided-below", "(with_equity 0 up_case)", below, least_cash(below) - 1, RESERVETEKORT),
            definition("larger_case", "FileCase", larger, "The same, where they reach it: the first fund with a larger flow of which that is so."),
            undecided_statement("equity-undecided-above", "larger_case", above, least_cash(above), VRIJ_VERMOGEN)]


def equity_figures():
    rewritings = [rewriting_statement(f"equity-rewritten-{thousandths}", small_file(thousandths)) for thousandths in (500, 1_000)]
    return "\n".join([FIGURES_HEAD, CHANGES, *class_statements(),
                      *(statement for name, case in (("up", examples.up()), ("down", examples.down())) for statement in fund_statements(name, case)),
                      *summed_statements(), border_statement(), *undecided_statements(), *rewritings])


PATHS = {"crates/model/proofs/EquityCases.antt": equity_read,
         "crates/method/proofs/EquityCases.antt": equity_figures,
         "crates/savingmodel/proofs/EquityCases.antt": equity_saved,
         "crates/refusals/proofs/EquityField.antt": equity_field}
