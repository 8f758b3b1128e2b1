"""Tests of the mutants, without the prover: python3 -m unittest tests.unit.test_mutants."""

import contextlib
import glob
import io
import json
import os
import re
import subprocess
import tempfile
import unittest
import unittest.mock

from tests.mistakes import mutant_edits, mutants
from tests.mistakes.mutant_edits import Definitions, Type
from tests.mistakes.mutants import ILL_FORMED, REFUSED, SURVIVES, TIME, Outcome

PATH = "crates/model/specs/Small.antt"
SMALL = '''\
-- The number 7 of a comment, and 8 of a `use` line below.
use Rattle.std.specs.Prelude.{ℕ, ◌≤◌, ◌+◌}
use Rattle.std.specs.Int.Signed.{
  le_z,
}
use Rattle.arith.specs.Rounding.{End, low, high}

infix 40 ◌≈◌
pub record Held (n : ℕ) : Type 0 where
  pub first : n ≤ 120
  -- 3 in a comment
  pub second : (e : End) → n ≤ 1

pub data Sort : Type 0 where
  one two : Sort

abbrev pub sized : ℕ → ℕ
sized n = le_z n 20 + n

unfoldable pub chosen : End → ℕ
chosen low = record { low = 5; high = other high }
'''
TYPES = {"Held": Type(frozenset(), (("first", "second"),))}
NAMES = {"other": ("arith", "Rounding")}


def small(text=SMALL):
    return Definitions(PATH, text, TYPES, NAMES).mutants()


def without_uses(text):
    return re.sub(r"^use [^{\n]*(\{[^}]*\})?\n", "", text, flags=re.M)


class Made(unittest.TestCase):
    def test_exactly_these(self):
        self.assertEqual([m.key.removeprefix("model/Small:") for m in small()], [
            "Held.first:pub#1→left out", "Held.second:pub#1→left out", "Held.first:≤#1→<", "Held.first:120#1→121", "Held.first:120#1→119", "Held.first:120#1→240",
            "Held.second:≤#1→<", "Held.second:1#1→2", "Held.second:1#1→0",
            "sized:le_z#1→lt_z", "sized:20#1→21", "sized:20#1→19", "sized:20#1→40", "sized:+#1→-",
            "chosen:5#1→6", "chosen:5#1→4", "chosen:5#1→10", "chosen:other#1→left out", "chosen:high#2→low"])

    def test_a_field_less(self):
        texts = {m.key: m.text for m in small()}
        self.assertEqual(texts["model/Small:Held.first:pub#1→left out"], SMALL.replace("pub first : n ≤ 120", ""))
        self.assertEqual(texts["model/Small:Held.second:pub#1→left out"], SMALL.replace("pub second : (e : End) → n ≤ 1", ""))
        one = SMALL.replace("  pub first : n ≤ 120\n", "")
        self.assertEqual([m.key for m in small(one) if m.kind == "dropped"], [])

    def test_nothing_is_below_0(self):
        text = SMALL.replace("record { low = 5; high = other high }", "0")
        self.assertEqual([m.new for m in small(text) if m.name == "chosen"], ["1"])

    def test_lines_and_kinds(self):
        found = {(m.line, m.kind) for m in small()}
        self.assertEqual(found, {(10, "dropped"), (12, "dropped"), (10, "order"), (10, "up"), (10, "down"), (10, "doubled"), (12, "order"), (12, "up"), (12, "down"),
                                 (18, "order"), (18, "up"), (18, "down"), (18, "doubled"), (18, "operator"), (21, "up"), (21, "down"),
                                 (21, "doubled"), (21, "left out"), (21, "end")})

    def test_a_name_that_is_missing_comes_into_its_use_line(self):
        texts = {m.key: m.text for m in small()}
        self.assertIn("use Rattle.std.specs.Prelude.{ℕ, ◌≤◌, ◌+◌, ◌<◌}\n", texts["model/Small:Held.first:≤#1→<"])
        self.assertIn("  le_z, lt_z,\n}\n", texts["model/Small:sized:le_z#1→lt_z"])
        self.assertEqual(texts["model/Small:chosen:high#2→low"].count("low, high}"), 1)

    def test_a_module_that_is_missing_gets_a_use_line(self):
        text = SMALL.replace("chosen low = record { low = 5; high = other high }", "chosen e = root e")
        self.assertIn("{End, low, high, other}", small(text)[-1].text)
        elsewhere = text.replace("use Rattle.arith.specs.Rounding.{End, low, high}\n", "")
        self.assertIn("\n}\nuse Rattle.arith.specs.Rounding.{other}\n", small(elsewhere)[-1].text)

    def test_a_name_that_nobody_has_makes_no_mutant(self):
        text = SMALL.replace("chosen low = record { low = 5; high = other high }", "chosen e = root e")
        self.assertEqual([m.old for m in Definitions(PATH, text, TYPES, {}).mutants() if m.name == "chosen"], [])

    def test_fields_only_of_types_that_the_file_reaches(self):
        known = {"Case": Type(frozenset({"Amounts"}), ()), "Amounts": Type(frozenset(), (("cash", "credit"),)),
                 "Curve": Type(frozenset(), (("cash", "N"),))}
        text = "use Case.{Case}\nworth : Case → ℕ\nworth k = k.amounts.cash\n"
        self.assertEqual([m.key for m in Definitions(PATH, text, known, {}).mutants()], ["model/Small:worth:.cash#1→.credit"])


class Stable(unittest.TestCase):
    def test_keys_stay_when_something_is_added_elsewhere(self):
        more = SMALL.replace("abbrev pub sized", "-- more\nabbrev pub before : ℕ\nbefore = 20 + 20\n\nabbrev pub sized")
        added = {m.key for m in small(more)} - {m.key for m in small()}
        self.assertEqual({key.split(":")[1] for key in added}, {"before"})
        self.assertLess({m.key for m in small()}, {m.key for m in small(more)})


class OfTheRepository(unittest.TestCase):
    @classmethod
    def setUpClass(cls):
        cls.mutants = mutant_edits.definition_mutants(mutants.ROOT, mutants.definition_paths(mutants.ROOT))
        cls.originals = {m.path: mutant_edits.read(mutants.ROOT, m.path) for m in cls.mutants}

    def test_every_file_has_some_and_keys_are_unique(self):
        self.assertEqual({m.path for m in self.mutants}, set(mutants.definition_paths(mutants.ROOT)))
        self.assertEqual(len({m.key for m in self.mutants}), len(self.mutants))

    def test_each_differs_in_one_token(self):
        for m in [m for m in self.mutants if m.kind != mutant_edits.DROPPED]:
            before, after = without_uses(self.originals[m.path]), without_uses(m.text)
            places = [p.start() for p in re.finditer(re.escape(m.old), before)]
            self.assertTrue(any(before[:p] + m.new + before[p + len(m.old):] == after for p in places), m.key)
            self.assertNotEqual(before, after, m.key)

    def test_signatures_and_heads_are_as_they_were(self):
        def signatures(text):
            return re.findall(r"^(?:(?:abbrev |unfoldable )?pub .*|infix.*)$", text, re.M)
        for m in self.mutants:
            self.assertEqual(signatures(m.text), signatures(self.originals[m.path]), m.key)

    def test_what_is_listed_names_mutants(self):
        same, stated = mutants.read_same(mutants.SAME), mutants.read_same(mutants.STATED)
        self.assertLessEqual({*same, *stated}, {m.key for m in self.mutants})
        self.assertFalse(set(same) & set(stated))

    def test_the_page_lists_the_same(self):
        page = mutant_edits.read(mutants.ROOT, "docs/GUARANTEES.md")
        section = page.split("## Wrong edits that mean the same\n")[1].split("\n## ")[0]
        rows = [line for line in section.splitlines() if line.startswith("| `")]
        self.assertEqual(rows, mutants.same_rows(mutants.read_same(mutants.SAME)))


CODE = '''\
// 7 in a comment
use a::b;
ghost use Rattle.std.specs.Int.Signed.{le_z};
const MOST: u64 = 1_000;

pub struct Ends {
    pub lower: u64,
    pub upper: u64,
}

fn wide(b: Ends, x: [u64; 15]) -> bool
    requires { b.lower ≤ 12 }
    ensures named { result ≡ le_z 3 4 }
{
    let lower: u64 = 0;
    b.lower < b.upper
}
'''


class OfCode(unittest.TestCase):
    def test_exactly_these(self):
        known = {"Ends": Type(frozenset(), (("lower", "upper"),))}
        self.assertEqual([m.key.removeprefix("curves/src/lib:") for m in mutant_edits.of_code("crates/curves/src/lib.rt", CODE, known)],
                         ["MOST:1_000#1→1001", "MOST:1_000#1→999", "MOST:1_000#1→2000", "wide:0#1→1", "wide:lower#2→upper", "wide:<#1→<=", "wide:upper#1→lower"])

    def test_programs_have_none(self):
        made = mutant_edits.code_mutants(mutants.ROOT, set(mutants.crates(mutants.ROOT)))
        self.assertFalse({m.path.split("/")[1] for m in made} & mutants.PROGRAMS)
        self.assertEqual(len({m.key for m in made}), len(made))

    def test_no_crate_needs_one_that_is_left_out(self):
        for name, below in mutants.crates(mutants.ROOT).items():
            self.assertFalse(mutants.PROGRAMS & set(below), name)


SAID = '''\
/t/crates/model/proofs/Worked.antt:150:14: error: `c1-listing`: the two types differ
/t/crates/model/proofs/Worked.antt:216:35: error: `twelve-cases`: `c1-listing` was not admitted
logic=not-proved
'''


class Judged(unittest.TestCase):
    def judged(self, status, said, path="crates/model/specs/Exact.antt"):
        return mutants.judged(status, said, "/t", path, "model")

    def test_passes(self):
        self.assertIsNone(self.judged(0, "logic=proved"))

    def test_refused_names_the_first(self):
        self.assertEqual(self.judged(1, SAID), Outcome(REFUSED, "model", "crates/model/proofs/Worked.antt:150 c1-listing"))

    def test_an_error_in_the_definitions_is_ill_formed(self):
        said = SAID.replace("proofs/Worked", "specs/Exact")
        self.assertEqual(self.judged(1, said).verdict, ILL_FORMED)
        self.assertEqual(self.judged(1, said, "crates/model/src/case.rt").verdict, REFUSED)

    def test_what_does_not_reach_the_prover_is_ill_formed(self):
        self.assertEqual(self.judged(1, "/t/crates/model/src/case.rt:7:9: error[mismatched-types]: expected `bool`\n").verdict, ILL_FORMED)

    def test_no_verdict_is_time(self):
        self.assertEqual(self.judged(None, "").verdict, TIME)
        self.assertEqual(self.judged(3, "rattle: no verdict\n").verdict, TIME)

    def test_a_prover_that_fails_is_no_refusal(self):
        with self.assertRaises(RuntimeError):
            self.judged(2, "out of memory")


class Reported(unittest.TestCase):
    def report(self, outcomes, same=()):
        with contextlib.redirect_stdout(io.StringIO()) as said:
            well = mutants.report(["a table"], small(), outcomes, dict.fromkeys(same, "of a reason"), {m.key for m in small()})
        return well, said.getvalue()

    def test_a_survivor(self):
        key = "model/Small:sized:le_z#1→lt_z"
        outcomes = {m.key: Outcome(REFUSED, "model") for m in small()}
        self.assertEqual(self.report(outcomes)[0], True)
        well, said = self.report({**outcomes, key: Outcome(SURVIVES)})
        self.assertFalse(well)
        self.assertIn("SURVIVES crates/model/specs/Small.antt:18 le_z → lt_z", said)
        well, said = self.report({**outcomes, key: Outcome(SURVIVES)}, [key])
        self.assertTrue(well)
        self.assertNotIn("SURVIVES crates", said)

    def test_a_list_that_is_wrong_is_told(self):
        key = "model/Small:sized:le_z#1→lt_z"
        said = self.report({key: Outcome(REFUSED, "model")}, [key, "model/Small:gone:1#1→2"])[1]
        self.assertIn(f"listed, and refused: {key}", said)
        self.assertIn("listed, and no mutant: model/Small:gone:1#1→2", said)
        self.assertIn("18 of 19 were not tried", said)

    def test_the_table_counts_each_once(self):
        made = small()
        outcomes = {m.key: o for m, o in zip(made, [Outcome(ILL_FORMED, "model"), Outcome(REFUSED, "model"), Outcome(REFUSED, "theory"),
                                                    Outcome(REFUSED, "method"), Outcome(REFUSED, "refusals"), Outcome(REFUSED, "engine"), Outcome(TIME, "model"), Outcome(SURVIVES), Outcome(SURVIVES)])}
        head, row, total = mutants.table(made, outcomes, {made[8].key: "of a reason"})
        self.assertEqual(" ".join(head.split()), "made ill-formed own crate definitions theory long above time same SURVIVES not tried")
        self.assertEqual(row.split()[1:], ["19", "1", "1", "1", "1", "1", "1", "1", "1", "1", "10"])
        self.assertEqual(total.split()[1:], row.split()[1:])

    def test_the_tables_of_stated_count_each_once(self):
        made = small()
        plain = Outcome(REFUSED, "model", "crates/model/proofs/Plain.antt:1 a-b")
        outcomes = {m.key: o for m, o in zip(made, [Outcome(ILL_FORMED, "model"), Outcome(REFUSED, "model"), Outcome(REFUSED, "pinned"), plain,
                                                    Outcome(TIME, "model"), Outcome(SURVIVES), Outcome(SURVIVES), Outcome(SURVIVES)])}
        head, *rows = mutants.stated_tables(made, outcomes, {made[5].key: "of a reason"}, {made[6].key: "of a reason"})
        self.assertEqual(" ".join(head.split()), "made ill-formed computed plain use time same listed SURVIVES not tried")
        self.assertEqual([row.split()[1:] for row in rows[:2]], 2 * [["19", "1", "2", "1", "1", "1", "1", "1", "11"]])
        self.assertEqual([row.split()[0] for row in rows[4:]], ["dropped", "order", "up", "down", "doubled", "operator", "left", "end", "all"])

    def test_rows_of_the_same(self):
        self.assertEqual(mutants.same_rows({"model/A:b:&&#1→||": "of a reason"}), ["| `model/A:b:&&#1→\\|\\|` | of a reason |"])


class Chosen(unittest.TestCase):
    def chosen(self, *words):
        return [m.key for m in mutants.chosen(small(), mutants.options(list(words)))]

    def test_parts_make_the_whole(self):
        parts = [self.chosen("--part", f"{k}/3") for k in (1, 2, 3)]
        self.assertEqual(sorted(sum(parts, [])), sorted(m.key for m in small()))
        self.assertEqual(max(map(len, parts)) - min(map(len, parts)), 1)

    def test_a_seed_draws_an_order(self):
        self.assertEqual(self.chosen("--seed", "3"), self.chosen("--seed", "3"))
        self.assertNotEqual(self.chosen("--seed", "3"), self.chosen())
        self.assertEqual(sorted(self.chosen("--seed", "3")), sorted(self.chosen()))

    def test_files_and_kinds(self):
        self.assertEqual(self.chosen("--file", "Small"), self.chosen())
        self.assertEqual(self.chosen("--file", "Large,model/Small"), self.chosen())
        self.assertEqual(self.chosen("--file", "mall"), [])
        self.assertEqual(self.chosen("--kind", "operator,end"), ["model/Small:sized:+#1→-", "model/Small:chosen:high#2→low"])

    def test_since_a_commit(self):
        """A line that was changed, one that was added, and none that went or stayed."""
        with tempfile.TemporaryDirectory() as folder, unittest.mock.patch.object(mutants, "ROOT", folder):
            git = lambda *words: subprocess.run(["git", "-C", folder, "-c", "user.name=a", "-c", "user.email=a@b.example", *words],
                                                check=True, capture_output=True)
            path = os.path.join(folder, "A.antt")
            git("init", "-q")
            for text in ("a\nb\nc\nd\n", "a\nB\nd\ne\nf\n"):
                with open(path, "w", encoding="utf-8") as file:
                    file.write(text)
                git("add", "A.antt")
                git("commit", "-qm", "a")
            self.assertEqual(mutants.lines_since("HEAD~1", path), {2, 4, 5})
            self.assertEqual(mutants.lines_since("HEAD", path), set())
            with self.assertRaises(SystemExit):
                mutants.lines_since("nothing", path)


class Resumed(unittest.TestCase):
    def test_a_refusal_holds_for_the_file_and_a_survivor_for_the_tree(self):
        first, second, third, fourth = small()[:4]
        with tempfile.TemporaryDirectory() as folder:
            path = os.path.join(folder, "results")
            with open(path, "w", encoding="utf-8") as file:
                for m, text, tree, verdict in ((first, None, "old", REFUSED), (second, None, "old", SURVIVES), (third, None, "now", SURVIVES),
                                               (fourth, "another", "now", REFUSED)):
                    record = {"key": m.key, "text": text or mutants.text_sum(m), "tree": tree, "verdict": verdict, "crate": "", "first": "", "seconds": 1}
                    file.write(json.dumps(record) + "\n")
            self.assertEqual(set(mutants.resumed(path, small(), "now")), {first.key, third.key})


class Stages(unittest.TestCase):
    DEPS = {"arith": [], "model": ["arith"], "theory": ["arith", "model"], "curves": ["model"], "window": ["model", "theory", "arrayvec"], "cursor": []}

    def test_the_own_crate_first_then_those_above(self):
        self.assertEqual(mutants.stages("model", self.DEPS), ["model", "theory", "curves", "window"])
        self.assertEqual(mutants.stages("theory", self.DEPS), ["theory", "window"])
        self.assertEqual(mutants.stages("window", self.DEPS), ["window"])

    def test_those_that_name_the_file_come_first(self):
        texts = {"theory": "use Rattle.model.specs.Windows.{a}", "window": "use Rattle.model.specs.Window.{a}", "arith": ""}
        first = mutants.naming("crates/model/specs/Window.antt", texts)
        self.assertEqual(first, {"window"})
        self.assertEqual(mutants.stages("model", self.DEPS, first), ["model", "window", "theory", "curves"])
        self.assertEqual(mutants.naming("crates/arith/src/scale.rt", {"curves": "use arith::scale::Long;", "host": "scale"}), {"curves"})

    def test_what_a_crate_reaches(self):
        self.assertEqual(mutants.reached("window", self.DEPS), ["arith", "model", "theory"])

    def test_what_it_takes_of_the_kit(self):
        self.assertEqual(mutants.of_kit("window", self.DEPS), ["core", "std", "arrayvec"])
        self.assertEqual(mutants.of_kit("theory", self.DEPS), ["core", "std"])
        self.assertIn("itoa", mutants.of_kit("host", mutants.crates(mutants.ROOT)))

    def test_every_file_of_definitions_is_in_the_table(self):
        for crate in mutants.DEFINED:
            there = {os.path.basename(path)[:-len(".antt")] for path in glob.glob(os.path.join(mutants.ROOT, "crates", crate, "specs", "*.antt"))}
            self.assertEqual(set(mutants.DEFINITIONS[crate].split()), there - {"Lib", "inner"})

    def test_every_crate_of_the_tables_is_listed(self):
        listed = mutants.crates(mutants.ROOT)
        self.assertLessEqual(set(mutants.DEFINITIONS).union(*mutants.APART.values()), set(listed))


if __name__ == "__main__":
    unittest.main()
