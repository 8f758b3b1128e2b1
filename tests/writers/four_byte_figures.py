"""Rates in four bytes in the crates after `model`: curves and figures, saving, rolling windows and a UFR from months."""

from dataclasses import replace
from fractions import Fraction

from tests.inputs import examples, histories, host_cases, limits, to_save
from tests.reference import months, reference
from tests.reference.reference import AMOUNTS, Exact, Rounded, encode
from tests.writers.antt import argument, both_ends, computed, computed_fraction, definition, given_term, integer, list_term, short_list
from tests.writers.statements import (WRITTEN, after_equation, answer_equation, case_group, cases_definition, finer_in_window, four_term,
                                      rewriting_statement, strings, verdict_statement)

FOUR_FIGURES_HEAD = """\
-- Rates in four bytes: the curves and figures of a fund none of whose rates is a whole step, and rewritings, as computed statements about the
-- definitions.
""" + WRITTEN + """\
use mathlib.Core.Path.{◌≡◌, refl}
use mathlib.Core.Bool.{true, false}
use mathlib.Core.List.{[], ◌∷◌, ◌++◌}
use lib.Dec.{lit<}
use lib.ListN.{replicate}
use lib.IntN.{pos, neg_ℤ}
use Rattle.arith.specs.Rounding.{low, high}
use Rattle.model.specs.Case.{FileCase, with_days, per_step}
use Rattle.model.specs.Refusals.{forwards_right}
use Rattle.method.specs.Fraction.{◌//◌, ◌≐◌}
use Rattle.method.specs.Curve.{base, up, down, curve, P}
use Rattle.method.specs.Exact as Exact
use Rattle.method.specs.Rounded as Rounded
use Rattle.method.specs.FourBytes.{rewritten, rewritten_file}
use Rattle.method.specs.Listing.{ascii, word}
use Rattle.model.specs.declared.figures.Verdict.TheVariants.{Dekkingstekort}
use Rattle.model.proofs.Computing.{pairs}
use Rattle.model.proofs.FourByteCases.{finer_case, old_case, new_case, old_file, new_file}
use Rattle.method.proofs.Computing.{all}
"""

FOUR_SAVED_HEAD = """\
-- Saving a case with rates in four bytes, as computed statements about the definitions.
""" + WRITTEN + """\
use mathlib.Core.Path.{◌≡◌, refl}
use mathlib.Core.List.{List, [], ◌∷◌, ◌++◌, map}
use lib.ListN.{replicate}
use lib.IntN.{pos, neg_ℤ}
use Rattle.std.specs.Prelude.{Ok, Err}
use Rattle.refusal.specs.declared.Refusal.TheVariants.{WrongFields, Room}
use Rattle.model.specs.Case.{FileCase}
use Rattle.model.proofs.Computing.{pairs}
use Rattle.model.proofs.FourByteCases.{quads, finer_file, finer_case, old_case, new_case, old_file, new_file}
use Rattle.savingmodel.specs.Saving.{given, case_refusal, shortest, save_refusal, save_answer, saved_after}
use Rattle.savingmodel.proofs.Computing.{all}
use Rattle.savingmodel.proofs.SavedCases.{amounts_of, shocks_of, fields_of, no_amounts, no_shocks}
"""

FOUR_ROLLING_HEAD = """\
-- A rolling window valued with a case of four-byte rates, as computed statements about the definitions.
""" + WRITTEN + """\
use Prim.Native.String.{String}
use mathlib.Core.Path.{◌≡◌, refl}
use mathlib.Core.List.{List, [], ◌∷◌}
use lib.ListN.{replicate, take}
use lib.IntN.{pos}
use Rattle.refusal.specs.Numbered.{answer_of}
use Rattle.method.specs.Listing.{listing}
use Rattle.method.proofs.Computing.{text}
use Rattle.model.proofs.FourByteCases.{finer_case}
use Rattle.rollingmodel.specs.Rolling.{rolling_valuation, rolling_factors_after}
use Rattle.rollingmodel.proofs.Computing.{all}
use Rattle.rollingmodel.proofs.RollingCases.{flat_days}
"""

FOUR_MONTHS_HEAD = """\
-- The UFR of months put into files with rates in four bytes, as computed statements about the definitions.
""" + WRITTEN + """\
use mathlib.Core.Path.{◌≡◌, refl}
use mathlib.Core.List.{[], ◌∷◌, ◌++◌}
use Rattle.model.proofs.Computing.{pairs}
use Rattle.model.proofs.FourByteCases.{finer_file}
use Rattle.monthsmodel.specs.Months.{with_ufr_field, months_case}
use Rattle.monthsmodel.proofs.Computing.{all}
use Rattle.monthsmodel.proofs.MonthsCases.{found_history}
"""


def four_curves(name, term, case):
    """N, the UFR and P(t) of the base, the up and the down curve: a shift counts 100 units."""
    out = []
    for move, shift in reference.shifts(case).items():
        on, (N, P) = f"(curve {term} {move})", reference.points(case, shift)
        out.append(computed(f"{name}-{move}-points", f"{on}.N ≡ {N}", f"{on}.ufr ≡ {case.ufr}", *(f"P {on} {t} ≡ {P[t]}" for t in (1, 20, 60))))
    return out


def finer_figures(case):
    rounded, exact, other = Rounded(case), Exact(case), Rounded(examples.rounded_off(case))
    figure = lambda which, of, worked: both_ends(f"Rounded.{which} {of}{' base' if which in 'LB' else ''} {{e}}", getattr(worked, which))
    assert all(getattr(rounded, name) != getattr(other, name) for name in ("L", "B", "S1", "S")) and rounded.factors[21] != other.factors[21]
    days = short_list(map(lambda day: argument(list_term(day, integer)), examples.rounded_off(case).days))
    out = [computed(f"finer-{name}", *figure(name, "finer_case", rounded)) for name in ("L", "B", "S1", "S")]
    out += [computed(f"finer-factor-{t}", *both_ends(f"Rounded.factor (curve finer_case base) {{e}} {t}", rounded.factors[t])) for t in (1, 21)]
    out.append(computed_fraction("finer-exact-factor-1", "Exact.factor (curve finer_case base) 1", exact.base.factor(1)))
    out += [computed_fraction(f"finer-exact-{name}", f"Exact.{name} finer_case base", getattr(exact, name)) for name in "LB"]
    out.append(verdict_statement("finer", "finer_case", case))
    out.append(definition("rounded_off", "FileCase", f"with_days 2 ({days}) finer_case", "The same fund with its rates rounded to steps: other figures."))
    out += [computed(f"rounded_off-{name}", *figure(name, "rounded_off", other)) for name in ("L", "S1")]
    return out + [computed("rounded_off-factor-21", *both_ends("Rounded.factor (curve rounded_off base) {e} 21", other.factors[21]))]


def per_step_right(days, per_step):
    """Refusal 6 by what a step adds to a sum."""
    return reference.growths_within_limits(days, Fraction(per_step, len(days)))


def two_day_statements(case):
    """What a step adds to a sum, of one day and of two, in both days fields; refusal 6 by it; and the curves of two days."""
    days = [examples.finer().days[0], [1] * 60]
    two = replace(case, days=days)
    steep = limits.steep_days(1, 2, 1_200_001)
    term = lambda made: short_list(argument(list_term(day, integer)) for day in made)
    told = lambda made, per_step: f"forwards_right {per_step} ({term(made)}) ≡ {'true' if per_step_right(made, per_step) else 'false'}"
    return [definition("two_days", "FileCase", f"with_days 4 ({term(days)}) finer_case", "The same fund with a second day, a unit at every term."),
            computed("per-step", f"per_step finer_case ≡ {case.per_step}", f"per_step two_days ≡ {two.per_step}",
                     f"per_step rounded_off ≡ {examples.rounded_off(case).per_step}"),
            computed("forwards-per-step", told(steep, 100), told(steep, 101)), *four_curves("two-days", "two_days", two)]


def finer_working():
    """The curves of the fund, with a shift times 100; its figures, and those of its rates rounded to steps, which are others; and two days."""
    case = examples.finer()
    return four_curves("finer", "finer_case", case) + finer_figures(case) + two_day_statements(case)


def rewritten_defaults():
    """The rewritten file of one that says what it might leave out: a UFR of 4,200, and amounts of 0."""
    return rewriting_statement("rewritten-defaults", encode(examples.c1(amounts=dict.fromkeys(AMOUNTS, 0)), True, False, True))


def four_figures():
    return "\n".join([FOUR_FIGURES_HEAD, *finer_working(), computed("rewritten-case", "rewritten old_case ≡ new_case"),
                      computed("rewritten-file", "rewritten_file old_file ≡ new_file"), rewritten_defaults()])


# ---------------------------------------------------------------- saving

def four_case_groups():
    yield "rate-bytes", "No rate has so many bytes: 3.", to_save.rate_bytes_rows()
    yield "four-limits", "Every number at its limits; then rates at theirs, and a unit past them.", [*to_save.end_rows(4), *to_save.four_rate_rows()]
    yield "four-forwards", "Error 6, at its limits times 100 and one past them.", to_save.forward_rows(4)


def four_short_rows():
    """Without the optional fields, and with all of them, in four bytes."""
    rows = list(to_save.omission_rows())
    return [(what, replace(given, rates=host_cases.flat(-50_000, 1), rate_bytes=4)) for what, given in (rows[0], rows[-1])]


def four_saved_statements():
    """The shortest bytes, those of the fund among them, from which its case is read back (finer-case); the answer and the buffer, and 14 after
    the case's own numbers."""
    rows, small, steep = four_short_rows(), host_cases.SMALL_FOUR, host_cases.steep(1, 2, 1_200_001, 4)
    three = replace(small, rate_bytes=3)
    length = len(reference.shortest(small))
    rooms = range(length - 1, length + 1)
    pattern = (b"\xaa\x55" * length)[:length + 2]
    refused = lambda name, given: f"save_refusal {name} 0 ≡ {reference.save(given, b'').refusal}"
    return [cases_definition("four_short_cases", rows, "The shortest form keeps the days field."),
            computed("four-shortest", f"map shortest four_short_cases ≡ {short_list(argument(four_term(reference.shortest(given))) for _, given in rows)}"),
            definition("small_four", "FileCase", given_term(small), f"A case of {length} bytes."),
            definition("four_steep", "FileCase", given_term(steep), "A case that 6 refuses."),
            definition("three_bytes", "FileCase", given_term(three), "A case that 3 refuses."),
            computed("four-saved", "shortest finer_case ≡ finer_file"),
            computed("four-rooms", *(f"save_refusal small_four {room} ≡ {reference.save(small, bytes(room)).refusal}" for room in rooms),
                     refused("four_steep", steep), refused("three_bytes", three)),
            computed("four-answers", *(answer_equation("small_four", small, room) for room in rooms), answer_equation("three_bytes", three, length)),
            computed("four-saved-after", after_equation("small_four", small, pattern), after_equation("three_bytes", three, pattern))]


def four_saved():
    cases = [statement for name, what, rows in four_case_groups() for statement in case_group(name, what, list(rows))]
    different = computed("different-bytes", "shortest old_case ≡ old_file", "shortest new_case ≡ new_file")
    return "\n".join([FOUR_SAVED_HEAD, *cases, *four_saved_statements(), different])


# ---------------------------------------------------------------- rolling windows and months

def four_window_statements():
    """The listing and the first factor of the fund with the window's days, which are two-byte days."""
    lines, into, factors, _ = finer_in_window()
    return [definition("in_window_listing", "List String", strings(lines), "The fund with the days of a window."),
            computed("in-window-listing", "listing (answer_of (rolling_valuation flat_days finer_case 240 240)) ≡ text in_window_listing"),
            computed("in-window-factors", f"take 2 (rolling_factors_after {into}) ≡ {list_term(factors[:2])}")]


def four_windows():
    return "\n".join([FOUR_ROLLING_HEAD, *four_window_statements()])


def four_month_statements():
    """The UFR goes after the map, of a file with a UFR and of one without."""
    ufr, own = months.rounded_ufr(histories.FOUND), encode(examples.finer(), True, True, True)
    plain = reference.shortest(host_cases.SMALL_FOUR)
    field = lambda name, data: f"with_ufr_field {ufr} {name} ≡ {four_term(months.with_ufr_field(data, ufr))}"
    return [computed("four-ufr-fields", field("finer_file", own), field(argument(four_term(plain)), plain)),
            computed("four-months-case", f"(months_case finer_file found_history).ufr ≡ {ufr}",
                     f"(months_case finer_file found_history).rate_bytes ≡ {examples.finer().rate_bytes}")]


def four_months():
    return "\n".join([FOUR_MONTHS_HEAD, *four_month_statements()])


PATHS = {"crates/method/proofs/FourByteCases.antt": four_figures,
         "crates/savingmodel/proofs/FourByteCases.antt": four_saved,
         "crates/rollingmodel/proofs/FourByteCases.antt": four_windows,
         "crates/monthsmodel/proofs/FourByteCases.antt": four_months}
