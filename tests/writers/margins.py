"""The margins of a verdict: figures within them and beyond them; and crates/method/proofs/Borders.antt, of funds that are far from both
borders."""

from fractions import Fraction
from types import SimpleNamespace

from tests.inputs import examples
from tests.reference import reference
from tests.reference.reference import Exact, Rounded, Surd
from tests.writers.antt import COMPARED, COMPARED_TWICE, case_term, computed, definition, holds, refuted
from tests.writers.statements import WRITTEN

BORDERS_HEAD = """\
-- The margins of a verdict, of funds that are far from both borders: a valuation that answers undecided for them would break them.
""" + WRITTEN + """\
use Prim.Native.Nat.{ℕ}
use mathlib.Core.Path.{◌≡◌}
use mathlib.Core.Logic.{◌⊎◌}
use mathlib.Core.List.{[], ◌∷◌}
use native.Mathlib.Nat.{not-le_of_lt}
use native.Mathlib.Omega.{arith}
use lib.Dec.{lit<}
use lib.ListN.{replicate}
use lib.IntN.{pos}
use Rattle.std.specs.Prelude.{None, Result, Ok, Err}
use Rattle.refusal.specs.declared.Refusal.{Refusal}
use Rattle.model.specs.Case.{FileCase}
use Rattle.method.specs.Curve.{base}
use Rattle.method.specs.Exact as Exact
use Rattle.method.specs.Buffers.{answered}
use Rattle.method.specs.Margins.{NearFirst, NearSecond, first_margin, second_margin}
use Rattle.model.specs.declared.figures.Valuation.{Valuation}
use Rattle.model.specs.declared.figures.Verdict.TheVariants.{Onbeslist}
use Rattle.method.proofs.Computing.{all}
"""

NEAR = """\
-- undecided is said only within the margins of a border, by the exact figures
abbrev pub Near : FileCase → Type 0
Near k = NearFirst (first_margin k) (Exact.A k) (Exact.L k base) ⊎ NearSecond (second_margin k) (Exact.A k) (Exact.L k base) (Exact.S² k)

-- of what a valuation answers; a refusal has no verdict
abbrev pub UndecidedNear : FileCase → Result Valuation Refusal → Type 0
UndecidedNear k (Err refusal) = ⊥
UndecidedNear k (Ok v) = v.verdict ≡ Onbeslist → Near k
"""

FAR_FUNDS = {  # by the cash: what the fund is, and the field that is false of it at each border
    "short": (900_000, "below the first border", "below", "positive"),
    "middling": (1_075_000, "above the first border and below the second", "above", "below.0"),
    "rich": (1_200_000, "above both borders", "above", "above"),
}


ROOTED = {  # squares that hold a root, by the number of cents that they are the square of, under the names of the statements
    7 * 10 ** 8: ("seven_million²", "The square of an S of 700,000,000 cents, a part of it as a root, and that of an S of 0.",
                  Surd(Fraction(48 * 10 ** 16), Fraction(5 * 10 ** 15), Fraction(4))),
    0: ("none²", None, Surd(Fraction(0), Fraction(0), Fraction(0))),
}


def rooted_definitions():
    term = lambda surd: f"record {{ plain = whole {surd.plain}; factor = whole {surd.factor}; under = whole {surd.radicand} }}"
    assert all(S * S <= surd <= S * S for S, (_, _, surd) in ROOTED.items())
    return [definition(name, "Rooted", term(surd), what) for name, what, surd in ROOTED.values()]


def within_margins(A, L, S_squared, WL, WB):
    """The reference's own answer for figures in whole cents."""
    return reference.within_margins(SimpleNamespace(A=Fraction(A), L=Fraction(L), S_squared=S_squared), WL, WB)


def near_statement(name, kind, figures, fields, widths):
    """That figures are within the margin, or that they are not, as the reference says."""
    A, L, S, failing = figures
    margin = {"NearFirst": "(first_margin long)", "NearSecond": "(second_margin long)"}[kind]
    root, _, S_squared = ROOTED[S] if kind == "NearSecond" else ("", None, Fraction(S * S))
    proposition = f"{kind} {margin} (whole {A}) (whole {L}) {root}".rstrip()
    assert within_margins(A, L, S_squared, *widths) == (failing is None)
    return holds(name, proposition, fields) if failing is None else refuted(name, proposition, failing)


def margin_statements():
    """Both margins of the long fund, and figures one cent within and one cent beyond each side of each border."""
    rounded = Rounded(examples.long())
    widths = rounded.WL, rounded.WB
    first = 20 * rounded.WB + 21 * rounded.WL
    second = 4 * rounded.WL + 3 * rounded.WB + 8
    out = [computed("long-margins", f"first_margin long ≡ {first}", f"second_margin long ≡ {second}")]
    far = 10 ** 14  # an S with which the other border is far away

    def at_first(over):
        """A and L with 20 × A - 21 × L = over."""
        return (10 ** 10 * 21 - over, 10 ** 10 * 20 - over, far)

    def at_second(over, S):
        """A and L with A - L - S = over, and 20 × A far from 21 × L."""
        return (10 ** 9 + S + over, 10 ** 9, S)

    fields = dict.fromkeys(("above", "below"), COMPARED)
    for name, over, failing in (("within-above", first, None), ("within-below", -first, None), ("beyond-above", first + 1, "above"),
                                ("beyond-below", -first - 1, "below")):
        out.append(near_statement(f"first-border-{name}", "NearFirst", (*at_first(over), failing), fields, widths))
    out += rooted_definitions()
    fields = {"above": COMPARED, "positive": COMPARED, "below": COMPARED_TWICE}  # the plain part, then the part that holds the root
    for name, over, S, failing in (("within-above", second, 7 * 10 ** 8, None), ("within-below", -second, 7 * 10 ** 8, None),
                                   ("beyond-above", second + 1, 7 * 10 ** 8, "above"), ("beyond-below", -second - 1, 7 * 10 ** 8, "below.1"),
                                   ("within-without-S", -second, 0, None), ("beyond-without-S", -second - 1, 0, "positive")):
        out.append(near_statement(f"second-border-{name}", "NearSecond", (*at_second(over, S), failing), fields, widths))
    return out


def far_statements(name, cash, where, *failing):
    """That a fund is far from both borders, and that its valuation is not undecided."""
    case, fund = examples.c1(amounts=examples.c1().amounts | {"cash": cash}), f"(with_cash {cash})"
    exact, rounded = Exact(case), Rounded(case)
    assert not reference.within_margins(exact, rounded.WL, rounded.WB)
    near = f"(Exact.A {fund}) (Exact.L {fund} base)"
    borders = (("first", f"NearFirst (first_margin {fund}) {near}"), ("second", f"NearSecond (second_margin {fund}) {near} (Exact.S² {fund})"))
    return [f"-- a fund {where}",
            *(refuted(f"{name}-far-from-{border}", proposition, field) for (border, proposition), field in zip(borders, failing, strict=True)),
            f"{name}-decided : UndecidedNear {fund} (answered None {fund})\nunfolding all\n"
            f"{name}-decided undecided = absurd (let told : ◌≡◌ {{A = ℕ}} 0 1 = cc in omega (arith, told))\n"]


def borders():
    cash = case_term(examples.c1(amounts=examples.c1().amounts | {"cash": "cash"}))
    return "\n".join([BORDERS_HEAD, NEAR, f"-- C1 with other cash\nabbrev pub with_cash : ℕ → FileCase\nwith_cash cash = {cash}\n",
                      *(statement for name, fund in FAR_FUNDS.items() for statement in far_statements(name, *fund))])


PATHS = {"crates/method/proofs/Borders.antt": borders}
