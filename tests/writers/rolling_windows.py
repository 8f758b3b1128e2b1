"""Rolling windows: crates/rollingmodel/proofs/RollingCases.antt, and what takes longer to compute, crates/rollingcases/proofs/Rolling.antt."""

from tests.inputs import examples, host_cases, windows
from tests.reference import reference, rolling
from tests.reference.reference import encode
from tests.writers.antt import argument, computed, day_or_name, definition, given_term, integer, list_term, short_list, window_term
from tests.writers.statements import WRITTEN, finer_in_window, integers, listed, maker, number_table, strings

ROLLING_HEAD = """\
-- Rolling windows: which are right, the refusals of a change and of a valuation, the window after a change, and what a valuation leaves in
-- the lent buffers, as computed statements about the definitions.
""" + WRITTEN + """\
use Prim.Native.Nat.{ℕ}
use Prim.Native.String.{String}
use mathlib.Core.Path.{◌≡◌, refl}
use mathlib.Core.Bool.{true, false}
use mathlib.Core.List.{List, [], ◌∷◌, ◌++◌, map}
use lib.Dec.{ltb}
use lib.ListN.{replicate, take, drop}
use lib.IntN.{ℤ, pos, neg_ℤ}
use Rattle.refusal.specs.Numbered.{answer_of}
use Rattle.model.specs.Refusals.{first_of}
use Rattle.savingmodel.specs.Saving.{given}
use Rattle.rollingmodel.specs.Rolling.{
  days_held,
  empty_window,
  rolling_right,
  add_refusal,
  drop_refusal,
  add_day,
  drop_day,
  add,
  drop_oldest,
  queued_by,
  rolling_refusal,
  rolling_valuation,
  rolling_factors_after,
  rolling_rates_after,
}
use Rattle.method.specs.Listing.{listing}
use Rattle.rollingmodel.specs.declared.RollingWindow.{RollingWindow}
use Rattle.rollingmodel.specs.declared.ChangedWindow.{ChangedWindow}
use Rattle.method.proofs.Computing.{text}
use Rattle.rollingmodel.proofs.Computing.{all}
use Rattle.savingmodel.proofs.SavedCases.{amounts_of, shocks_of, fields_of, no_amounts, no_shocks, small}
"""

ROLLING_TABLE_HEAD = """\
-- Rolling windows, what takes longer to compute: a day added to 70 and to 69, the whole order of checks of a valuation, with a case of
-- two-byte and of four-byte days, and the first zero rate that a valuation leaves.
""" + WRITTEN + """\
use Prim.Native.Nat.{ℕ}
use mathlib.Core.Path.{◌≡◌, refl}
use mathlib.Core.List.{List, [], ◌∷◌, ◌++◌}
use lib.ListN.{replicate, take}
use lib.IntN.{pos, neg_ℤ}
use Rattle.savingmodel.specs.Saving.{given}
use Rattle.rollingmodel.specs.Rolling.{empty_window, add_refusal, rolling_refusal, rolling_rates_after}
use Rattle.rollingmodel.proofs.Computing.{all}
use Rattle.model.proofs.FourByteCases.{finer_case}
use Rattle.savingmodel.proofs.SavedCases.{amounts_of, shocks_of, fields_of, no_amounts, no_shocks, small}
use Rattle.savingmodel.proofs.FourByteCases.{small_four}
use Rattle.rollingmodel.proofs.RollingCases.{window_of, some_day, high_day, full_window, one_day_left, flat_days}
"""

FULL_WINDOW = """\
-- 15 before 5, of every window of 70 days that is right
full-window : (w : RollingWindow) → rolling_right w ≡ true → ltb w.count 70 ≡ false → add_refusal w high_day ≡ 15
unfolding add_refusal first_of
full-window w right full = simp (right, full)

-- and that window is given back
full-window-kept : (w : RollingWindow) → rolling_right w ≡ true → ltb w.count 70 ≡ false → add_day w high_day ≡ changed_to 15 w
unfolding add_refusal add_day first_of
full-window-kept w right full = simp (right, full)
"""

DAY_NAMES = {tuple(day): name for name, day in windows.DAYS.items()}


def day_argument(day):
    return argument(day_or_name(day, DAY_NAMES))


def window_argument(window):
    """By its name, if it has one."""
    names = [name for name, one in windows.WINDOWS.items() if one == window] + ["empty_window"] * (window == rolling.EMPTY)
    return names[0] if names else argument(window_term(window, DAY_NAMES))


def case_argument(given):
    """By its name, if it has one."""
    names = [name for name, one in (("small", host_cases.SMALL), ("small_four", host_cases.SMALL_FOUR)) if one == given]
    return names[0] if names else argument(given_term(given))


def window_definitions():
    """The structs of a window and of a change, and the days and windows that have a name."""
    return [maker("window_of", ["ℕ", "ℕ", "List ℤ", "List ℤ", "RollingWindow"], list(zip(rolling.Window._fields, "abcd")),
                  "count, start, rates and sums"),
            maker("changed_to", ["ℕ", "RollingWindow", "ChangedWindow"], list(zip(rolling.Changed._fields, "ab")),
                  "the refusal, or 0, and the window"),
            *(definition(name, "List ℤ", list_term(day, integer)) for name, day in windows.DAYS.items()),
            *(definition(name, "RollingWindow", window_term(window, DAY_NAMES)) for name, window in windows.WINDOWS.items())]


def right_statements():
    """What an empty window is, 27 or not, and the days held."""
    rows = list(windows.right_rows())
    told = short_list("false" if rolling.damaged(window) else "true" for _, window in rows)
    held = short_list(map(day_argument, rolling.days_held(windows.OVER_THE_END)))
    return [computed("empty-window", f"empty_window ≡ {window_term(rolling.EMPTY, DAY_NAMES)}"),
            definition("windows", "List RollingWindow", listed([(what, window_argument(window)) for what, window in rows]),
                       "At the limits of 27, on both sides; past a limit nothing else is wrong."),
            computed("windows-right", f"map rolling_right windows ≡ {told}"),
            computed("days-held", f"days_held over_the_end ≡ {held}")]


def add_row(what, window, day):
    return what, f"add_refusal {window_argument(window)} {day_argument(day)}", rolling.add(window, day).refusal


def drop_row(what, window):
    return what, f"drop_refusal {window_argument(window)}", rolling.drop(window).refusal


def value_row(what, call):
    refused = rolling.value(call.window, call.given, *([0] * length for length in call.lengths)).refusal
    return what, f"rolling_refusal {window_argument(call.window)} {case_argument(call.given)} {call.lengths[0]} {call.lengths[1]}", refused


def full_statement(name, row):
    """A window of that many days has a statement of its own, since the steps of a statement are limited."""
    what, term, number = add_row(*row)
    return f"-- {what}\n" + computed(name, f"{term} ≡ {number}")


def changed_statement(name, window, day):
    """The window after a change; a drop where the day is None."""
    if day is None:
        call, changed = f"drop_day {window_argument(window)}", rolling.drop(window)
    else:
        call, changed = f"add_day {window_argument(window)} {day_argument(day)}", rolling.add(window, day)
    return computed(name, f"{call} ≡ changed_to {changed.refusal} {window_argument(changed.window)}")


def queued(days, changes):
    """The days after a list of changes; one that is refused changes nothing."""
    for day in changes:
        try:
            days = rolling.dropped(days) if day is None else rolling.added(days, day)
        except reference.Refused:
            pass
    return days


def queue_equation(before, changes, term):
    """term takes a list of days."""
    changed = short_list("drop_oldest" if day is None else f"add {day_argument(day)}" for day in changes)
    return f"queued_by {term(before)} ({changed}) ≡ {term(queued(before, changes))}"


def queue_statement():
    """A drop from an empty list, and a day that is refused; one day too many, and one in the place of the oldest."""
    some, limit, high = windows.SOME, windows.LIMITS, windows.HIGH
    in_a_row = lambda days: argument(list_term(days, day_argument))
    return computed("queued-days", queue_equation([], [None, some, high, limit, None], in_a_row),
                    queue_equation([some] * rolling.MOST_DAYS, [limit, None, limit], in_a_row))


def into_buffers(*lengths):
    """A valuation into buffers of these lengths, all of whose entries are 7: its arguments, and both buffers afterwards."""
    held = [[7] * length for length in lengths]
    valued = rolling.value(windows.FLAT, host_cases.SMALL, *held)
    return f"flat_days small {argument(list_term(held[0]))} {argument(list_term(held[1], integer))}", valued.factors, valued.rates


def flat_lines(given):
    """The listing of a case with the days of flat_days."""
    case = rolling.case_with(given, rolling.days_held(windows.FLAT))
    return reference.listing(encode(case, *reference.needed_fields(case))).decode().splitlines()


def listing_statements(name, given, what=None):
    """What is printed of a valuation with flat_days."""
    return [definition(f"{name}_listing", "List String", strings(flat_lines(given)), what),
            computed(f"{name}-listing", f"listing (answer_of (rolling_valuation flat_days {case_argument(given)} 240 240)) ≡ text {name}_listing")]


def value_statements():
    """The answer and both buffers, except zero rates, which take longer; and the answer for equity classes that do not fall together."""
    long, factors, rates = into_buffers(242, 241)
    short_rates, same_factors, _ = into_buffers(240, 239)
    short_factors, _, same_rates = into_buffers(239, 240)
    spread = reference.given_of(examples.four_classes(500))
    return [*listing_statements("flat", host_cases.SMALL),
            *listing_statements("classes", spread, "A case with losses in four equity classes, whose correlation is 500."),
            computed("window-factors", f"take 2 (rolling_factors_after {long}) ≡ {list_term(factors[:2])}"),
            computed("window-kept", f"drop 240 (rolling_factors_after {long}) ≡ {list_term(factors[240:])}",
                     f"drop 240 (rolling_rates_after {long}) ≡ {list_term(rates[240:], integer)}"),
            computed("window-untouched", f"rolling_factors_after {short_rates} ≡ {list_term(same_factors)}",
                     f"rolling_rates_after {short_factors} ≡ {list_term(same_rates, integer)}")]


def rolling_cases():
    return "\n".join([ROLLING_HEAD, *window_definitions(), *right_statements(),
                      *number_table("add", [add_row(*row) for row in windows.add_rows()], "The order of checks of an addition."),
                      FULL_WINDOW,
                      *number_table("drop", [drop_row(*row) for row in windows.drop_rows()], "The order of checks of a drop."),
                      *(changed_statement(*row) for row in windows.change_rows()), queue_statement(),
                      *number_table("value", [value_row(*row) for row in windows.quick_value_rows()],
                                    "The order of checks of a valuation, up to the case's own, and after them."),
                      *value_statements()])


# ---------------------------------------------------------------- crates/rollingcases/proofs/Rolling.antt

def window_rates():
    """The zero rate of term 1, after the valuation of a rolling window."""
    into, _, rates = into_buffers(240, 240)
    return computed("window-rates", f"take 2 (rolling_rates_after {into}) ≡ {list_term(rates[:2], integer)}")


def in_window_rates():
    """The zero rates of term 1, in steps."""
    _, into, _, rates = finer_in_window()
    return computed("in-window-rates", f"take 2 (rolling_rates_after {into}) ≡ {integers(rates[:2])}")


def rolling_refused():
    full, one_less = windows.full_rows()
    rows = [value_row(*row) for row in windows.value_rows()]
    return "\n".join([ROLLING_TABLE_HEAD, full_statement("full", full), full_statement("one-day-left", one_less),
                      *number_table("value-order", rows, "The order of checks of a valuation."), window_rates(),
                      *number_table("four-windows", [value_row(*row) for row in windows.four_value_rows()],
                                    "With a case of four-byte days: its own rates and growths by its own step, then those of the window's days."),
                      in_window_rates()])


PATHS = {"crates/rollingmodel/proofs/RollingCases.antt": rolling_cases, "crates/rollingcases/proofs/Rolling.antt": rolling_refused}
