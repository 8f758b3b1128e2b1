"""The figures of case files and cases: crates/method/proofs/Pinned.antt, with their curves, widths, margins and verdicts; and what takes longer
to compute, with the listings of whole files, crates/pinned/proofs/Files.antt."""

from tests.inputs import examples
from tests.reference import reference
from tests.reference.reference import LOWER, MONEY, Exact, Rounded, encode
from tests.writers.antt import both_ends, case_definition, computed, computed_fraction, integer
from tests.writers.curves import bent_statements, bond_statements, shifted_statements, weight_statement
from tests.writers.margins import margin_statements
from tests.writers.statements import (TITLES, WRITTEN, exact_factor_statement, factor_statement, listing_statement, rate_statement,
                                      read_statements, verdict_statement)

PINNED_HEAD = """\
-- Numbers of case files and cases as computed statements about the definitions: what an edit of a definition is held against. What takes
-- longer to compute is in the crates `pinned` and `accepted`.
""" + WRITTEN + """\
use Prim.Native.Nat.{ℕ, ◌+◌}
use mathlib.Core.Path.{◌≡◌, refl}
use mathlib.Core.Bool.{true, false}
use mathlib.Core.List.{List, [], ◌∷◌, ◌++◌}
use native.Mathlib.Nat.{not-le_of_lt}
use lib.Dec.{lit<, lit≤}
use lib.ListN.{replicate}
use lib.IntN.{pos, neg_ℤ}
use Rattle.arith.specs.Rounding.{low, high}
use Rattle.model.specs.Numbers.{table}
use Rattle.model.specs.Constants.{last_term}
use Rattle.model.specs.Case.{FileCase, s}
use Rattle.model.specs.Layout.{file_of}
use Rattle.method.specs.Fraction.{◌//◌, ◌≐◌, whole, Rooted}
use Rattle.method.specs.Curve.{Curve, base, up, down, curve, P, weight}
use Rattle.method.specs.Exact as Exact
use Rattle.method.specs.Rounded as Rounded
use Rattle.method.specs.Buffers.{entry_of, factor_entries}
use Rattle.method.specs.Margins.{WL, WB, NearFirst, NearSecond, first_margin, second_margin}
use Rattle.method.specs.Containment.{
  least_step,
  most_step,
  factor_width_most,
  rate_width_most,
  L_width_most,
  B_width_most,
  A_width_most,
  S_width_most,
}
use Rattle.method.specs.Listing.{ascii, word}
use Rattle.model.specs.declared.figures.Verdict.TheVariants.{Dekkingstekort, Reservetekort, VrijVermogen}
use Rattle.model.proofs.Computing.{pairs}
use Rattle.method.proofs.Computing.{all}
"""

FILES_HEAD = """\
-- The listings of whole case files, and what takes longer to compute of a curve, as computed statements about the definitions.
""" + WRITTEN + """\
use Prim.Native.String.{String}
use mathlib.Core.Path.{◌≡◌, refl}
use mathlib.Core.List.{List, [], ◌∷◌}
use lib.Dec.{lit<}
use lib.IntN.{pos, neg_ℤ}
use Rattle.refusal.specs.Numbered.{answer_of}
use Rattle.arith.specs.Rounding.{low, high}
use Rattle.method.specs.Fraction.{◌//◌, ◌≐◌}
use Rattle.method.specs.Curve.{base, up, down, curve}
use Rattle.method.specs.Exact as Exact
use Rattle.method.specs.Rounded as Rounded
use Rattle.method.specs.Buffers.{valuation_of}
use Rattle.method.specs.Listing.{listing}
use Rattle.method.proofs.Computing.{text, all}
use Rattle.method.proofs.Pinned.{bent_curve, up_file, down_file, deepest_file, deepest_case, long}
"""


def fund_statements(name, case):
    """A file, its case, and every figure of it in both workings."""
    rounded, exact = Rounded(case), Exact(case)
    out = read_statements(name, case, encode(case, True, True, True))
    for figure in MONEY:
        moved = " base" if figure in "LB" else ""
        out.append(computed(f"{name}-{figure}", *both_ends(f"Rounded.{figure} {name}_case{moved} {{e}}", getattr(rounded, figure))))
    for figure, held in list(zip(MONEY, reference.EXACT))[:-1]:
        term = f"{figure}²" if figure in reference.ROOTS else figure
        moved = " base" if figure in "LB" else ""
        out.append(computed_fraction(f"{name}-exact-{term}", f"Exact.{term} {name}_case{moved}", getattr(exact, held)))
    for part, x in (("plain", exact.S_squared.plain), ("factor", exact.S_squared.factor), ("under", exact.S_squared.radicand)):
        out.append(computed_fraction(f"{name}-exact-S²-{part}", f"(Exact.S² {name}_case).{part}", x))
    out.append(verdict_statement(name, name + "_case", case))
    return out


def both_fall_statements():
    """B - L falls on the up and on the down curve, as a fund's does that has its bond flow between its pensions: S1 is the larger fall, not
    their sum."""
    out = []
    for name, case, larger in (("both_fall", examples.both_fall(1_000, 500), "up"), ("both_fall_down", examples.both_fall(500, 1_000), "down")):
        rounded, exact = Rounded(case), Exact(case)
        falls = {move: exact.fall(getattr(exact, move)) for move in rounded.falls}
        assert all(fall[LOWER] > 0 for fall in rounded.falls.values()) and exact.S1 == falls[larger] == max(falls.values())
        what = f"A bond flow at term 2 between pensions at terms 1 and 3: B - L falls on both curves, more on the {larger} curve."
        out.append(case_definition(name, case, what))
        for move, fall in falls.items():
            out.append(computed(f"{name}-{move}-fall", *both_ends(f"Rounded.fall {name} {move} {{e}}", rounded.falls[move])))
            out.append(computed_fraction(f"{name}-{move}-exact-fall", f"Exact.fall {name} {move}", fall))
        out.append(computed(f"{name}-S1", *both_ends(f"Rounded.S1 {name} {{e}}", rounded.S1)))
        out.append(computed_fraction(f"{name}-exact-S1", f"Exact.S1 {name}", exact.S1))
    return out


def deepest_statements():
    """The largest bond factor. The figures take longer: Files.antt of the crate `pinned`."""
    case = examples.deepest()
    out = read_statements("deepest", case, encode(case, True, True, True))
    out += [factor_statement(f"deepest-{move}", f"(curve deepest_case {move})", 60, case, shift)
            for move, shift in reference.shifts(case).items()]
    rounded = Rounded(case)
    return out + [computed("deepest-widths", f"WL deepest_case ≡ {rounded.WL}", f"WB deepest_case ≡ {rounded.WB}")]


def width_statements():
    """WL, WB and the margins: of a fund with large flows past term 60, of one with none, of one whose Q needs no rounding."""
    named = [("long", examples.long(), TITLES["long"]),
             ("no_flows", examples.no_flows(), "C1 with flows of 0 on both sides: Q is 0."),
             ("whole_quotient", examples.whole_quotient(), "C1 with a flow whose 4 × t × t × flow is 10^10: Q is 1, with nothing to round.")]
    out = []
    for name, case, comment in named:
        rounded = Rounded(case)
        out.append(case_definition(name, case, comment))
        out.append(computed(f"{name}-widths", f"WL {name} ≡ {rounded.WL}", f"WB {name} ≡ {rounded.WB}"))
    return out


def containment_statements():
    """The numbers of the promise of containment and width: its terms and steps, and the widths that it allows."""
    rounded = Rounded(examples.long())
    terms, steps = len(rounded.factors) - 1, reference.TESTED_STEPS
    return [computed("containment-ranges", f"last_term ≡ {terms}", f"least_step ≡ {integer(steps[0])}", f"most_step ≡ {integer(steps[-1])}"),
            computed("containment-widths", *(f"factor_width_most {t} ≡ {4 * t * t}" for t in (1, 60, 120)), "rate_width_most ≡ 2"),
            computed("long-money-widths", f"L_width_most long ≡ {rounded.WL}", f"B_width_most long ≡ {rounded.WB}",
                     f"A_width_most long ≡ {rounded.WB}", f"S_width_most long ≡ {3 * rounded.WL + 2 * rounded.WB + 8}")]


def shortage_statements():
    """DEKKINGSTEKORT, which no other case here has in both workings."""
    case = examples.c1(amounts=examples.c1().amounts | {"cash": 1_049_999})
    return [case_definition("shortage", case, "C1 with cash 1,049,999: one euro below the first border."),
            verdict_statement("shortage", "shortage", case)]


def undecided_statements():
    """ONBESLIST on each side of each border."""
    named = [("first_below", examples.first_border, reference.DEKKINGSTEKORT, "first border, which the exact figures do not reach"),
             ("first_above", examples.first_border, reference.RESERVETEKORT, "first border, which the exact figures reach"),
             ("second_below", examples.second_border, reference.RESERVETEKORT, "second border, which the exact figures do not reach"),
             ("second_above", examples.second_border, reference.VRIJ_VERMOGEN, "second border, which the exact figures reach")]
    out = []
    for name, border, exact, where in named:
        case = examples.undecided(border, exact)
        out.append(case_definition(name, case, f"\"Else ONBESLIST, which is undecided.\": C1 with flat 100, at the {where}."))
        out.append(verdict_statement(name, name, case))
    return out


def pinned():
    sections = [PINNED_HEAD, weight_statement(), *bent_statements()]
    for name, case in (("up", examples.up()), ("down", examples.down())):
        sections += fund_statements(name, case)
    sections += bond_statements() + both_fall_statements() + deepest_statements()
    sections += width_statements() + containment_statements() + shifted_statements() + margin_statements()
    sections += shortage_statements() + undecided_statements()
    return "\n".join(sections)


# ---------------------------------------------------------------- crates/pinned/proofs/Files.antt

def shifted_figures():
    """L of the long fund on the up and the down curve: 60 of its flows lie where the UFR decides. B on all three curves."""
    case, out = examples.long(), []
    for move, shift in (("up", case.shocks["up_shift"]), ("down", -case.shocks["down_shift"])):
        worth = reference.worth(case.pension, reference.rounded_factors(case, shift))
        out.append(computed(f"long-{move}-L", *both_ends(f"Rounded.L long {move} {{e}}", worth)))
    for move, worth in Rounded(case).Bs.items():
        out.append(computed(f"long-{move}-B", *both_ends(f"Rounded.B long {move} {{e}}", worth)))
    return out


def deepest_figures():
    """B on all three curves, and the exact bond factor of the down curve. An exact sum of 60 fractions takes too long to compute."""
    case = examples.deepest()
    out = [exact_factor_statement("deepest-down", "(curve deepest_case down)", 60, case, reference.shifts(case)["down"])]
    for move, worth in Rounded(case).Bs.items():
        out.append(computed(f"deepest-{move}-B", *both_ends(f"Rounded.B deepest_case {move} {{e}}", worth)))
    return out


def pinned_files():
    bent = Rounded(examples.bent())
    out = [FILES_HEAD]
    for name, case in (("up", examples.up()), ("down", examples.down()), ("deepest", examples.deepest())):
        out += listing_statement(name, encode(case, True, True, True))
    for t in (40, 60, 61, 120):
        out.append(computed(f"bent-factor-{t}", *both_ends(f"Rounded.factor bent_curve {{e}} {t}", bent.factors[t])))
    out += [rate_statement("bent", "bent_curve", bent, t) for t in (1, 2, 3)] + [rate_statement("bent", "bent_curve", bent, 21, ("high",))]
    return "\n".join(out + shifted_figures() + deepest_figures())


PATHS = {"crates/method/proofs/Pinned.antt": pinned, "crates/pinned/proofs/Files.antt": pinned_files}
