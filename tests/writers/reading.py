"""The reading of case files: the quick rows of the table of refusals (crates/model/proofs/Refused.antt), the whole table
(crates/refusals/proofs/Refused.antt), and files that are accepted, with the cases that they hold (crates/accepted/proofs/Accepted.antt)."""

from tests.inputs import examples, limits
from tests.reference import reference
from tests.reference.reference import encode, refusal
from tests.writers.antt import argument, computed, definition, file_term, short_list
from tests.writers.statements import RISING, WRITTEN, case_statement, group_statement, listed, part_statement, plain_part_statements

REFUSED_USES = """\
use Prim.Native.Nat.{ℕ}
use mathlib.Core.Path.{◌≡◌, refl}
use mathlib.Core.List.{List, [], ◌∷◌, ◌++◌, map}
"""

QUICK_HEAD = """\
-- The refusals of files at the limits and in the order of checks: those rows of the table that are quick to compute. The whole table is in
-- the crate `refusals`.
""" + WRITTEN + REFUSED_USES + """\
use Rattle.std.specs.Prelude.{None}
use Rattle.model.specs.Refusals.{refusal, days_at, day_count, rates_part_after, rates_part}
use Rattle.model.proofs.Computing.{pairs, all}
"""

TABLE_HEAD = """\
-- The refusals of files at each limit, on both sides, and in each place of the order of checks. A number that passes its check is mostly
-- shown by a file that ends after the field, which is refused with 1.
""" + WRITTEN + REFUSED_USES + """\
use Rattle.model.specs.Refusals.{refusal, rates_part}
use Rattle.model.proofs.Computing.{pairs, all}
"""

ACCEPTED_HEAD = """\
-- Case files that are accepted, and the cases that they hold, as computed statements about the definitions.
""" + WRITTEN + """\
use Prim.Native.Nat.{ℕ}
use mathlib.Core.Path.{◌≡◌, refl}
use mathlib.Core.List.{List, [], ◌∷◌}
use Rattle.model.specs.Layout.{case_of}
use Rattle.model.specs.Refusals.{refusal}
use Rattle.model.proofs.Computing.{all}
use Rattle.method.proofs.Pinned.{bent_file, bent_case, up_file, up_case, down_file, down_case, deepest_file, deepest_case, long}
"""


def refused_parts(rows):
    """Files with rates, each refused with its own number, and that the part of each is empty."""
    assert all(refusal(data) == number and reference.rates_part(data) == (0, 0) for number, data in rows)
    terms = listed([(str(number), argument(file_term(data))) for number, data in rows])
    return [definition("refused_files", "List (List ℕ)", terms, "Files in which rates stand, by the number that refuses them: \"an empty part\"."),
            computed("refused-parts", f"map rates_part refused_files ≡ {short_list(['[]'] * len(rows))}")]


def refused_quickly():
    return "\n".join([QUICK_HEAD, *(group_statement(*group) for group in limits.quick_groups()), part_statement([RISING]),
                      *plain_part_statements(2), *refused_parts(limits.quick_part_rows())])


def refused():
    numbers = list(range(1, 13))
    assert [number for number, _ in limits.part_rows()] == numbers
    return "\n".join([TABLE_HEAD, *(group_statement(*group) for group in limits.groups()), part_statement([RISING, [300] * 60]),
                      *refused_parts(list(limits.part_rows())),
                      computed("refused-part-numbers", f"map refusal refused_files ≡ {short_list(numbers)}")])


def accepted():
    out = [ACCEPTED_HEAD]
    for name in ("bent", "up", "down", "deepest"):
        out.append(computed(f"{name}-accepted", f"refusal {name}_file ≡ 0"))
    out += [case_statement("bent"), case_statement("up"), case_statement("down"), case_statement("deepest")]
    out.append(definition("long_file", "List ℕ", file_term(encode(examples.long(), True, True, True)), "the long fund as a file"))
    out.append(computed("long-case", "case_of long_file ≡ long"))
    return "\n".join(out)


PATHS = {"crates/model/proofs/Refused.antt": refused_quickly, "crates/refusals/proofs/Refused.antt": refused,
         "crates/accepted/proofs/Accepted.antt": accepted}
