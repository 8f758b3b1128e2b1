"""Statements about curves: weights, sums, growths and factors, of pensions and of bonds, in both workings."""

from tests.inputs import examples
from tests.reference import reference
from tests.reference.reference import Exact, ExactCurve, Rounded, encode
from tests.writers.antt import both_ends, case_definition, computed, computed_fraction, integer, long_list
from tests.writers.statements import ends, exact_factor_statement, factor_statement, read_statements


def weight_statement():
    weights = long_list(reference.WEIGHTS.values(), 10, " " * 4)
    return "-- each weight, terms 21 to 60, in thousandths\n" + computed("weights-by-term", f"table (λ i. weight (21 + i)) 40 ≡ {weights}")


def bent_statements():
    case = examples.bent()
    rounded, exact = Rounded(case), ExactCurve(case)
    N, P = reference.points(case)
    sums = reference.sums(case.days)
    out = read_statements("bent", case, encode(case, True, False, True))
    out.append("abbrev pub bent_curve : Curve\nbent_curve = curve bent_case base\n")
    out.append(computed("bent-sums", *(f"s bent_case.days {t} ≡ {integer(sums[t])}" for t in (0, 1, 20, 21, 60))))
    for t in (21, 60):
        out.append(computed(f"bent-growth-{t}", *both_ends(
            f"Rounded.growth bent_curve {{e}} {t}", ends(lambda end: reference.growth(N, P, t, end)))))
    for t in (21, 60, 61):
        out.append(computed(f"bent-weighed-{t}", *both_ends(
            f"Rounded.weighed bent_curve {{e}} {t}", ends(lambda end: reference.weighed_growth(N, P, case.ufr, t, end)))))
    for t in (1, 20, 21, 22):
        out.append(computed(f"bent-factor-{t}", *both_ends(f"Rounded.factor bent_curve {{e}} {t}", rounded.factors[t])))
    out.append(computed("bent-entries-21", *both_ends("entry_of (factor_entries bent_case) {e} 21", rounded.factors[21])))
    for t in (1, 2):
        out.append(computed_fraction(f"bent-exact-factor-{t}", f"Exact.factor bent_curve {t}", exact.factor(t)))
    for t in (60, 61, 120):
        out.append(computed_fraction(f"bent-exact-growth-{t}", f"Exact.growth bent_curve {t}", exact.adjusted_growth(t)))
    return out


def bond_statements():
    """Bond factors on both sides of term 20 and at term 60, of a bent curve; then those of a fund with one bond flow, at term 21, and its
    B and S1. Its curves are C6's, a flat 1,000 and C3's."""
    bent, past = examples.bent(), examples.past_20()
    rounded, exact = Rounded(past), Exact(past)
    moves = reference.shifts(past)
    out = [factor_statement("bent", "bent_curve", t, bent) for t in (1, 20, 21, 60)]
    out += [exact_factor_statement("bent", "bent_curve", t, bent) for t in (1, 2, 21)]
    out.append(case_definition("past20", past, "C1 with shifts and one bond flow, at term 21. The base curve is C6's, the down curve C3's."))
    for move, shift in moves.items():
        on = f"(curve past20 {move})"
        out += [factor_statement(f"past20-{move}", on, 21, past, shift), exact_factor_statement(f"past20-{move}", on, 1, past, shift),
                exact_factor_statement(f"past20-{move}", on, 21, past, shift)]
    for move in moves:
        out.append(computed(f"past20-{move}-B", *both_ends(f"Rounded.B past20 {move} {{e}}", rounded.Bs[move])))
        out.append(computed_fraction(f"past20-{move}-exact-B", f"Exact.B past20 {move}", getattr(exact, move).bond_worth(past.bonds)))
    out.append(computed("past20-S1", *both_ends("Rounded.S1 past20 {e}", rounded.S1)))
    out.append(computed_fraction("past20-exact-S1", "Exact.S1 past20", exact.S1))
    return out


def shifted_statements():
    """The up and the down curve of the long fund: P, and the growth on both sides of term 60, where the UFR decides."""
    case, out = examples.long(), []
    for move, shift in (("base", 0), ("up", case.shocks["up_shift"]), ("down", -case.shocks["down_shift"])):
        on = f"(curve long {move})"
        N, P = reference.points(case, shift)
        exact = ExactCurve(case, shift)
        out.append(computed(f"long-{move}-points", f"{on}.N ≡ {N}", f"{on}.ufr ≡ {case.ufr}",
                            *(f"P {on} {t} ≡ {P[t]}" for t in (1, 20, 60))))
        for t in (21, 60, 61):
            out.append(computed(f"long-{move}-weighed-{t}", *both_ends(
                f"Rounded.weighed {on} {{e}} {t}", ends(lambda end: reference.weighed_growth(N, P, case.ufr, t, end)))))
        for t in (1, 21, 61):
            out.append(computed_fraction(f"long-{move}-exact-growth-{t}", f"Exact.growth {on} {t}", exact.adjusted_growth(t)))
    return out
