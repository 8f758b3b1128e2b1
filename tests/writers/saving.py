"""Writes crates/savingmodel/proofs/SavedCases.antt: the saving of a case."""

from tests.inputs import host_cases, to_save
from tests.reference import reference
from tests.reference.reference import AMOUNTS, NO_SHOCKS, SHOCKS
from tests.writers.antt import PEOPLE, argument, computed, definition, file_term, given_term, record, short_list
from tests.writers.statements import LETTERS, WRITTEN, after_equation, answer_equation, case_group, cases_definition, listed, maker

SAVED_HEAD = """\
-- Saving a case: which number it is refused with, its shortest bytes, the answer and the lent buffer afterwards, as computed statements about
-- the definitions.
""" + WRITTEN + """\
use Prim.Native.Nat.{ℕ}
use mathlib.Core.Path.{◌≡◌, refl}
use mathlib.Core.List.{List, [], ◌∷◌, ◌++◌, map}
use lib.ListN.{replicate}
use lib.IntN.{pos, neg_ℤ}
use Rattle.std.specs.Prelude.{Ok, Err}
use Rattle.refusal.specs.declared.Refusal.TheVariants.{Forward, Room}
use Rattle.model.specs.Case.{FileCase}
use Rattle.savingmodel.specs.Saving.{given, case_refusal, shortest, save_refusal, save_answer, saved_after}
use Rattle.model.specs.declared.case.Amounts.{Amounts}
use Rattle.model.specs.declared.case.Shocks.{Shocks}
use Rattle.model.specs.declared.case.CaseFields.{CaseFields}
use Rattle.model.proofs.Computing.{pairs}
use Rattle.savingmodel.proofs.Computing.{all}
"""


def makers():
    """The records of a case, each number by its name."""
    named = lambda names, letters=LETTERS: list(zip(names, letters))
    people = record(named(PEOPLE, "efg"), "    ")
    return [maker("amounts_of", ["ℕ"] * 8 + ["Amounts"], named(AMOUNTS), "eight amounts, in the file's order"),
            maker("shocks_of", ["ℕ"] * 13 + ["Shocks"], named(SHOCKS), "thirteen shocks, as the record has them"),
            maker("fields_of", ["ℕ", "ℕ", "Amounts", "Shocks", "ℕ", "ℕ", "ℕ", "CaseFields"],
                  [("rate_bytes", "a"), ("ufr", "b"), ("amounts", "c"), ("shocks", "d"), ("people", people)],
                  "the number of bytes of a rate, UFR, amounts, shocks, head count, pension age and mean age"),
            definition("no_amounts", "Amounts", "amounts_of" + " 0" * 8),
            definition("no_shocks", "Shocks", " ".join(["shocks_of", *map(str, NO_SHOCKS.values())]), "the equity classes fall together")]


def case_groups():
    yield "limits", "Every number at its limits; then one at a time past them.", to_save.limit_rows()
    yield "counts", "n: 1 to 70, and rates that are no whole days; m: 1 to 120; k: 0 to 60.", to_save.count_rows()
    yield "forwards", "Error 6, at its limits and one past them.", to_save.forward_rows()
    yield "order", "The order of checks: two faults each.", to_save.order_rows()


def shortest_statements():
    rows = list(to_save.omission_rows())
    terms = listed([(row, argument(file_term(reference.shortest(given)))) for row, given in rows])
    what = "A UFR of 4,200, an all-zero amounts field, an empty bond list and an equity correlation of 1,000 are left out."
    return [cases_definition("short_cases", rows, what),
            definition("short_files", "List (List ℕ)", terms, "their bytes"),
            computed("shortest-bytes", "map shortest short_cases ≡ short_files")]


def buffer_statements():
    """14 one byte below the length needed and no longer at it, and after the case's own number; the answer and the buffer after each
    kind of call."""
    small, steep = host_cases.SMALL, host_cases.steep(1, 2, 12_001)
    length = len(reference.shortest(small))
    rooms = range(length - 1, length + 2)
    refusals = [reference.save(small, bytes(room)).refusal for room in rooms]
    pattern = b"\xaa\x55" * length
    longer, shorter = pattern[:length + 2], pattern[:length - 1]
    return [definition("small", "FileCase", given_term(small), f"A case of {length} bytes."),
            definition("steep", "FileCase", given_term(steep), "A case that 6 refuses."),
            computed("room-refusals", f"map (save_refusal small) ({short_list(rooms)}) ≡ {short_list(refusals)}",
                     f"save_refusal steep 0 ≡ {reference.save(steep, b'').refusal}"),
            computed("save-answers", *(answer_equation("small", small, room) for room in rooms), answer_equation("steep", steep, length)),
            computed("bytes_after", after_equation("small", small, longer), after_equation("steep", steep, longer)),
            computed("untouched-on-14", after_equation("small", small, shorter)), untouched_statement_of_cases()]


def untouched_statement_of_cases():
    """What a buffer holds after each of the refusals of a case: what it held."""
    rows, held = list(to_save.order_rows()), b"\xaa\x55"
    assert all(reference.save(given, held).refusal not in (0, 14) and reference.save(given, held).after == held for _, given in rows)
    return computed("untouched-on-refusal", f"map (λ k. saved_after k {argument(file_term(held))}) order_cases ≡ "
                                            f"replicate {len(rows)} {argument(file_term(held))}")


def saved():
    groups = [statement for name, what, rows in case_groups() for statement in case_group(name, what, list(rows))]
    return "\n".join([SAVED_HEAD, *makers(), *groups, *shortest_statements(), *buffer_statements()])


PATHS = {"crates/savingmodel/proofs/SavedCases.antt": saved}
