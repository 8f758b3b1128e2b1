"""A UFR from ten years of months: crates/monthsmodel/proofs/MonthsCases.antt, and what takes longer to compute,
crates/monthscases/proofs/Months.antt."""

from fractions import Fraction

from tests.inputs import examples, histories
from tests.reference import months, reference
from tests.writers.antt import argument, both_ends, computed, definition, file_term, integer, list_term, long_list, short_list
from tests.writers.statements import NAMES, WRITTEN, integers, number_table, strings

MONTHS_HEAD = """\
-- A UFR from ten years of months: the months of a history, the rounding of their mean, refusals, and the case and the file that are
-- valued with it, as computed statements about the definitions. What takes longer to compute is in the crate `monthscases`.
""" + WRITTEN + """\
use Prim.Native.Nat.{ℕ}
use mathlib.Core.Path.{◌≡◌, refl}
use mathlib.Core.List.{List, [], ◌∷◌, ◌++◌, map}
use lib.ListN.{replicate}
use lib.IntN.{ℤ, pos, neg_ℤ}
use Rattle.monthsmodel.specs.Months.{months_of, hundreds, apart, rounded_ufr, ufr_refusal, with_ufr_field, months_refusal, months_case}
use Rattle.model.proofs.Computing.{pairs}
use Rattle.monthsmodel.proofs.Computing.{all}
"""

MONTHS_TABLE_HEAD = """\
-- A UFR from ten years of months: the ring from several places, every limit and the order of 17 to 19, the answer; and valuations with it:
-- the order of checks from the end of the file on, the listing, and what both lent buffers hold afterwards. All of it as computed statements
-- about the definitions.
""" + WRITTEN + """\
use Prim.Native.Nat.{ℕ}
use Prim.Native.String.{String}
use mathlib.Core.Path.{◌≡◌, refl}
use mathlib.Core.List.{List, [], ◌∷◌, ◌++◌}
use lib.ListN.{replicate, take, drop}
use lib.IntN.{pos, neg_ℤ}
use Rattle.std.specs.Prelude.{Ok, Err}
use Rattle.refusal.specs.Numbered.{answer_of}
use Rattle.refusal.specs.declared.Refusal.TheVariants.{History, MonthsUfr}
use Rattle.arith.specs.Rounding.{low, high}
use Rattle.method.specs.Buffers.{entry_of, rate_entry_of}
use Rattle.monthsmodel.specs.Months.{months_of, oldest_first, total, ufr_refusal, ufr_answer}
use Rattle.monthsmodel.specs.Months.{months_refusal, months_valuation, months_factors_after, months_rates_after}
use Rattle.method.specs.Listing.{listing}
use Rattle.model.proofs.Computing.{pairs}
use Rattle.method.proofs.Computing.{text}
use Rattle.monthsmodel.proofs.Computing.{all}
use Rattle.monthsmodel.proofs.MonthsCases.{found_history, no_ufr_history, ring_months, plain_file, own_ufr_file}
"""

HISTORIES = {  # by name: what it is, and its bytes
    "found_history": ("a UFR of 3,100 is found", histories.FOUND),
    "no_ufr_history": ("no UFR is found, by 19", histories.NO_UFR),
    "ring_history": ("months of which the ring shows where it is read from", histories.RING),
}
NAMED = months.with_ufr_field(histories.PLAIN, months.rounded_ufr(histories.FOUND))
MONTHS_FILES = {
    "plain_file": ("a file without a UFR, with one pension flow, at term 21", histories.PLAIN),
    "own_ufr_file": ("the same with a UFR of 1,000", histories.OWN_UFR),
    "named_file": ("the same with a UFR of 3,100", NAMED),
}


def bytes_argument(data):
    """By its name, if it has one."""
    names = [name for name, (_, one) in (HISTORIES | MONTHS_FILES).items() if one == data]
    return names[0] if names else argument(file_term(data))


def months_definitions():
    return [definition(name, "List ℕ", file_term(data), what) for name, (what, data) in (HISTORIES | MONTHS_FILES).items()]


def ring_statements():
    """The months of a history, by several kinds of bytes."""
    return [definition("ring_months", "List ℤ", integers(months.months_of(histories.RING))),
            computed("ring-months", "months_of ring_history ≡ ring_months")]


def rounding_statements():
    """Hundreds of steps on both sides of each half, how far the mean lies from some, and the UFR of histories."""
    rounded = [months.rounded_mean(total) // 100 for total in histories.SUMS]
    told = [f"rounded_ufr {bytes_argument(history)} ≡ {integer(months.rounded_ufr(history))}"
            for history in (histories.FOUND, histories.NO_UFR, histories.RING)]
    return [definition("sums_of_months", "List ℤ", long_list(map(integer, histories.SUMS), 6, "    "),
                       "Both sides of halves below 0, around 0 and above, of the least and of the largest UFR, and the ends."),
            computed("rounded-hundreds", f"map hundreds sums_of_months ≡ {short_list(map(integer, rounded))}"),
            computed("distances", *map(apart_equation, (6_000, 6_000, -6_001), (0, 1, -1))),
            computed("rounded-ufrs", *told)]


def apart_equation(total, hundreds):
    """120 times the distance of the mean from this many hundreds of steps."""
    distance = months.MONTHS * abs(Fraction(total, months.MONTHS) - 100 * hundreds)
    return f"apart {argument(integer(total))} {argument(integer(hundreds))} ≡ {distance}"


def ufr_row(what, history, start):
    return what, f"ufr_refusal {bytes_argument(history)} {start}", months.ufr_of(history, start).refusal


def field_equation(file, ufr):
    return f"with_ufr_field {ufr} {bytes_argument(file)} ≡ {bytes_argument(months.with_ufr_field(file, ufr))}"


def case_equation(file):
    """The UFR that a file is valued with, its own or none."""
    return f"(months_case {bytes_argument(file)} found_history).ufr ≡ {months.rounded_ufr(histories.FOUND)}"


def months_row(what, call):
    arguments = f"{bytes_argument(call.file)} {bytes_argument(call.history)} {call.start} {call.lengths[0]} {call.lengths[1]}"
    return what, f"months_refusal {arguments}", months.refusal(call.file, call.history, call.start, *call.lengths)


def months_cases():
    both = histories.PLAIN, histories.OWN_UFR
    return "\n".join([MONTHS_HEAD, *months_definitions(), *ring_statements(), *rounding_statements(),
                      *number_table("history", [ufr_row(*row) for row in histories.quick_ufr_rows()], "Limits and the order of 17, 18 and 19."),
                      computed("months-cases", *map(case_equation, both)),
                      computed("ufr-fields", *(field_equation(file, 3_100) for file in both)),
                      *number_table("months", [months_row(*row) for row in histories.quick_value_rows()],
                                    "The order of checks up to the file's first ones.")])


# ---------------------------------------------------------------- crates/monthscases/proofs/Months.antt

def month_statements():
    """Two's complement, the high byte first; the ring from several places; the sum from the first byte on, and from the oldest month."""
    ring = months.months_of(histories.RING)
    turned = lambda start: f"oldest_first {start} ring_months"
    from_start = lambda start: "ring_months" if start == 0 else integers(months.oldest_first(start, ring))
    return [definition("odd_history", "List ℕ", file_term(histories.ODD_BYTES), "months at the ends of two bytes, and a step past each limit"),
            computed("odd-months", f"months_of odd_history ≡ {integers(months.months_of(histories.ODD_BYTES))}"),
            computed("oldest-first", *(f"{turned(start)} ≡ {from_start(start)}" for start in (0, 1, 118))),
            computed("sums-of-months", f"total ring_months ≡ {integer(months.sum_from_first_byte(histories.RING))}",
                     f"total ({turned(118)}) ≡ {integer(months.sum_from_oldest(histories.RING, 118))}",
                     f"total (months_of no_ufr_history) ≡ {integer(months.sum_from_first_byte(histories.NO_UFR))}")]


def ufr_equation(history, start):
    found = months.ufr_of(history, start)
    answer = f"Err {NAMES[found.refusal]}" if found.refusal else f"Ok {found.ufr}"
    return f"ufr_answer {bytes_argument(history)} {start} ≡ {answer}"


def ufr_statements():
    found, low = histories.FOUND, histories.NO_UFR
    table = number_table("every-history", [ufr_row(*row) for row in histories.ufr_rows()], "The limits and the order of 17, 18 and 19.")
    return [*table, computed("ufr-answers", ufr_equation(found, 119), ufr_equation(found, 120), ufr_equation(low, 0))]


def with_months(call):
    """A valuation into buffers all of whose entries are 7: its arguments, and both buffers afterwards."""
    held = [[7] * length for length in call.lengths]
    valued = months.value(call.file, call.history, call.start, *held)
    buffers = f"{argument(list_term(held[0]))} {argument(integers(held[1]))}"
    return f"{bytes_argument(call.file)} {bytes_argument(call.history)} {call.start} {buffers}", valued.factors, valued.rates


def untouched_statement(name, call):
    """What a refused call leaves in both buffers."""
    into, factors, rates = with_months(call)
    return computed(name, f"months_factors_after {into} ≡ {list_term(factors)}", f"months_rates_after {into} ≡ {integers(rates)}")


def with_found(file, start):
    """The valuation of a file with the UFR found, into buffers with later entries."""
    return histories.Call(file, histories.FOUND, start, (242, 241))


def months_listing(name, file):
    """What is printed of a valuation with the UFR found."""
    named = months.with_ufr_field(file, months.ufr_of(histories.FOUND, 119).ufr)
    return [definition(f"{name}_listing", "List String", strings(reference.listing(named).decode().splitlines())),
            computed(f"{name}-listing", f"listing (answer_of (months_valuation {name}_file found_history 119 240 240)) ≡ text {name}_listing")]


def classes_listing():
    """Likewise, of a file with losses in four equity classes, whose correlation is 500: its field is behind the UFR that is put in."""
    data = reference.shortest(reference.given_of(examples.four_classes(500)))
    return [definition("classes_file", "List ℕ", file_term(data), "Losses in four equity classes, whose correlation is 500."),
            *months_listing("classes", data)]


def factor_21(name, file, start):
    """The first factor that has the UFR in it."""
    into, factors, _ = with_months(with_found(file, start))
    return computed(f"{name}-factor-21", *both_ends(f"entry_of (months_factors_after {into}) {{e}} 21", factors[40:42]))


def months_buffers():
    """First entries, the upper zero rate of term 21, which is quicker to compute than the lower one, and later entries."""
    into, factors, rates = with_months(with_found(histories.PLAIN, 119))
    return [factor_21("plain", histories.PLAIN, 119), factor_21("own_ufr", histories.OWN_UFR, 0),
            computed("months-factors", f"take 2 (months_factors_after {into}) ≡ {list_term(factors[:2])}"),
            computed("months-rates", f"take 2 (months_rates_after {into}) ≡ {integers(rates[:2])}"),
            computed("months-rate-21", f"rate_entry_of (months_rates_after {into}) high 21 ≡ {integer(rates[41])}"),
            computed("months-kept", f"drop 240 (months_factors_after {into}) ≡ {list_term(factors[240:])}",
                     f"drop 240 (months_rates_after {into}) ≡ {integers(rates[240:])}")]


def months_refused():
    rows = dict(histories.value_rows())
    return "\n".join([MONTHS_TABLE_HEAD, *month_statements(), *ufr_statements(),
                      *number_table("months-order", [months_row(*row) for row in rows.items()],
                                    "The order of checks from the end of the file on."),
                      *months_listing("plain", histories.PLAIN), *months_listing("own_ufr", histories.OWN_UFR), *classes_listing(), *months_buffers(),
                      untouched_statement("untouched-on-1", dict(histories.quick_value_rows())["1 before 17"]),
                      untouched_statement("untouched-on-19", rows["19, from another start"]),
                      *number_table("four-months", [months_row(*row) for row in histories.four_value_rows()],
                                    "The order of checks of a file with rates in four bytes.")])


PATHS = {"crates/monthsmodel/proofs/MonthsCases.antt": months_cases, "crates/monthscases/proofs/Months.antt": months_refused}
