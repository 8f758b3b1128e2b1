"""Rates in four bytes: files and their refusals, crates/model/proofs/FourByteCases.antt; and the whole table of refusals, listings and
rewritings, crates/fourbytecases/proofs/FourBytes.antt."""

from dataclasses import replace
from itertools import product

from tests.inputs import examples, files, host_cases, limits, to_save
from tests.reference import reference
from tests.reference.reference import AMOUNTS, Rounded, encode
from tests.writers.antt import argument, case_definition, computed, definition, file_term, short_list
from tests.writers.statements import (BOTH, WRITTEN, case_group, case_statement, four_term, group_statement, listed, listing_statement,
                                      part_statement, part_term, place_equations, plain_part_statements, rate_statement, read_statements,
                                      rewriting_statement)

FOUR_HEAD = """\
-- Rates in four bytes: refusals of files, and the part that holds the rates, as computed statements about the definitions. The whole table of
-- refusals is in the crate `fourbytecases`.
""" + WRITTEN + """\
use Prim.Native.Nat.{ℕ, zero, suc}
use mathlib.Core.Path.{◌≡◌, refl}
use mathlib.Core.Bool.{true, false}
use mathlib.Core.List.{List, [], ◌∷◌, ◌++◌, map}
use lib.IntN.{pos, neg_ℤ}
use Rattle.std.specs.Prelude.{None}
use Rattle.model.specs.Case.{FileCase}
use Rattle.model.specs.Layout.{file_of, case_of}
use Rattle.model.specs.Refusals.{refusal, days_at, day_count, rates_part_after, rates_part}
use Rattle.model.proofs.Computing.{pairs, all}
"""

FOUR_TABLE_HEAD = """\
-- Rates in four bytes: the refusals of files at each limit, on both sides, and in each place of the order of checks; the order of checks of
-- a case; the listings of a file, of the same rewritten, and of a fund none of whose rates is a whole step; and two of its zero rates. All
-- of it as computed statements about the definitions. The days are the last field: a rate that passes 5 is shown by what comes behind it,
-- 0 or 6.
""" + WRITTEN + """\
use Prim.Native.Nat.{ℕ}
use Prim.Native.String.{String}
use mathlib.Core.Path.{◌≡◌, refl}
use mathlib.Core.List.{List, [], ◌∷◌, ◌++◌, map}
use lib.ListN.{replicate}
use lib.IntN.{pos, neg_ℤ}
use Rattle.refusal.specs.Numbered.{answer_of}
use Rattle.arith.specs.Rounding.{low, high}
use Rattle.model.specs.Refusals.{refusal, rates_part}
use Rattle.model.specs.Case.{FileCase}
use Rattle.savingmodel.specs.Saving.{given, case_refusal}
use Rattle.method.specs.Curve.{base, curve}
use Rattle.method.specs.Rounded as Rounded
use Rattle.method.specs.Buffers.{valuation_of}
use Rattle.method.specs.FourBytes.{rewritten_file}
use Rattle.method.specs.Listing.{listing}
use Rattle.model.proofs.Computing.{pairs}
use Rattle.method.proofs.Computing.{text}
use Rattle.rollingmodel.proofs.Computing.{all}
use Rattle.savingmodel.proofs.SavedCases.{amounts_of, shocks_of, fields_of, no_amounts, no_shocks}
use Rattle.model.proofs.FourByteCases.{quads, finer_file, finer_case, old_file, new_file}
"""

QUADS = """\
-- the same four bytes, n times
abbrev pub quads : ℕ → ℕ → ℕ → ℕ → ℕ → List ℕ
quads zero a b c d = []
quads (suc n) a b c d = a ∷ b ∷ c ∷ d ∷ quads n a b c d
"""


def finer_statements():
    """The file and its case, both ways; and where its rates are."""
    case = examples.finer()
    data = encode(case, True, True, True)
    part = f"rates_part finer_file ≡ {part_term(data)}"
    return read_statements("finer", case, data) + [case_statement("finer"),
                                                   computed("finer-part", *place_equations("finer_file", data, len(case.days)), part)]


def chosen_statements():
    """Where the days are with each choice of the optional fields, of files that end after their count."""
    case = examples.c1(amounts=dict.fromkeys(AMOUNTS, 0), rate_bytes=4)
    told = lambda present: ", ".join(name for name, there in zip(("UFR", "bonds", "amounts"), present) if there) or "none"
    choices = [(present, encode(replace(case, bonds=[5, 6] if present[1] else []), *present)) for present in product((False, True), repeat=3)]
    starts = [reference.rates_part(data)[0] for _, data in choices]
    rows = [(told(present), argument(four_term(data[:start]))) for (present, data), start in zip(choices, starts)]
    return [definition("chosen_files", "List (List ℕ)", listed(rows), "Files with each choice of the optional fields, to the count of their days."),
            computed("chosen-days-at", f"map days_at chosen_files ≡ {short_list(start - 1 for start in starts)}")]


def rewriting_statements():
    """A case and its rewriting have different bytes, which are the file and the rewritten file."""
    old = examples.before_rewriting()
    new, old_file = files.rewritten_case(old), encode(old, True, True, True)
    return [case_definition("old_case", old, "A case with two-byte days, and the same rewritten."), case_definition("new_case", new, "its rewriting"),
            definition("old_file", "List ℕ", file_term(old_file), "their files"), definition("new_file", "List ℕ", file_term(files.rewritten(old_file)))]


def four_byte_cases():
    groups = [group_statement(*group, BOTH) for group in limits.quick(limits.four_byte_groups())]
    return "\n".join([FOUR_HEAD, QUADS, *groups, *finer_statements(), *plain_part_statements(4), *chosen_statements(),
                      *rewriting_statements()])


# ---------------------------------------------------------------- crates/fourbytecases/proofs/FourBytes.antt

def plain_rewriting():
    """The rewritten file of one without optional fields: three days, and every rate limit in it."""
    case = replace(examples.before_rewriting(), ufr=reference.DEFAULT_UFR, bonds=[], amounts=dict.fromkeys(AMOUNTS, 0))
    plain = encode(replace(case, days=[*case.days, [-1_000] * 60, [10_000] * 60]), False, False, False)
    return rewriting_statement("plain-rewriting", plain)


def four_refused():
    old = encode(examples.before_rewriting(), True, True, True)
    named = {"finer": encode(examples.finer(), True, True, True), "old": old, "new": files.rewritten(old)}
    assert reference.listing(named["old"]) == reference.listing(named["new"])
    return "\n".join([FOUR_TABLE_HEAD, *(group_statement(*group, BOTH) for group in limits.four_byte_groups()),
                      part_statement([[1_237 * t - 20_000 for t in range(1, 61)], [300] * 60], 4),
                      plain_rewriting(),
                      *case_group("four-case-order", "The order of checks of a case: two faults each.",
                                  list(to_save.order_rows(host_cases.SMALL_FOUR, host_cases.FOUR_BYTE_FAULTS))),
                      *(statement for name, data in named.items() for statement in listing_statement(name, data)),
                      # zero rates count steps, of four-byte days too
                      *(rate_statement("finer", "(curve finer_case base)", Rounded(examples.finer()), t) for t in (1, 2))])


PATHS = {"crates/model/proofs/FourByteCases.antt": four_byte_cases, "crates/fourbytecases/proofs/FourBytes.antt": four_refused}
