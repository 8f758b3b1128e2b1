"""The must-fail edits, without the prover: each can be applied, each comment line begins with #, and each names what refuses it: an edit of
a definition the computed statements, any other the facts of a function that no longer hold. And how the logs are looked at."""

import glob
import os
import re
import shutil
import signal
import subprocess
import sys
import tempfile
import time
import unittest
from pathlib import Path
from unittest import mock

from tests import ROOT
from tests.mistakes import edit_logs
from tests.mistakes.edits import DEFINED, EDITS, facts, functions, functions_of, parts, place, read_text, refusing, statements


class Edits(unittest.TestCase):
    def test_can_be_applied(self):
        for edit in EDITS:
            comment, triples = parts(read_text(edit))
            with self.subTest(edit=os.path.relpath(edit, ROOT)):
                self.assertTrue(comment)
                self.assertTrue(triples)
                texts = {}
                for file, old, new in triples:
                    text = texts.setdefault(file, read_text(os.path.join(os.path.dirname(edit), "..", file)))
                    self.assertEqual(text.count(old), 1, old)
                    self.assertNotEqual(old, new)
                    texts[file] = text.replace(old, new)

    def test_comments_begin_with_a_sign(self):
        for edit in EDITS:
            with self.subTest(edit=os.path.relpath(edit, ROOT)):
                rest = [line for line in read_text(edit).splitlines() if not re.match(r"file: |old: |new:", line)]
                self.assertEqual([line for line in rest if not line.startswith("# ")], [])

    def test_definitions_name_what_refuses_them(self):
        for crate in DEFINED:
            known = statements(crate)
            for edit in glob.glob(os.path.join(ROOT, "crates", crate, "must-fail", "*.edit")):
                with self.subTest(edit=os.path.relpath(edit, ROOT)):
                    names = refusing(parts(read_text(edit))[0])
                    self.assertTrue(names)
                    self.assertEqual([name for name in names if name not in known], [])

    def test_others_name_facts_of_their_functions(self):
        for edit in EDITS:
            crate, name = place(edit)
            if crate in DEFINED:
                continue
            with self.subTest(edit=f"{crate}/{name}"):
                comment = parts(read_text(edit))[0]
                self.assertTrue(facts(comment) or refusing(comment))
                self.assertEqual([function for _, function in facts(comment) if function not in functions(crate)], [])
                self.assertEqual([name for name in refusing(comment) if name not in statements(crate)], [])

    def test_of_the_test(self):
        comment, triples = parts("# A slip. Refused by a-b, c\n# and d.\nfile: specs/X.antt\nold: 1\nnew: 2\nold: 3\nnew:\n")
        self.assertEqual(refusing(comment), ["a-b", "c", "d"])
        self.assertEqual(triples, [("specs/X.antt", "1", "2"), ("specs/X.antt", "3", "")])
        self.assertEqual(refusing("A slip."), [])
        self.assertEqual(facts("A slip: `a-b`, `c` and `d-2` of m::f and `e` of g no longer hold, nor `h`."),
                         [("a-b", "m::f"), ("c", "m::f"), ("d-2", "m::f"), ("e", "g")])
        self.assertEqual(facts("A slip."), [])
        self.assertIn("Refusal::number", functions("refusal"))
        self.assertIn("end::HighEnd::root", functions("arith"))

    def test_functions_of_impls(self):
        source = "impl<const N: usize> Ring<N> {\n    fn new() {\n}\n}\nimpl From<Ring<u64>> for Pair {\n    fn from() {}\n}\n" \
            "impl<T: Field> Field for Option<T> {\n    fn check() {}\n}\nimpl<A: Field, B: Field> Field for (A, B) {\n    fn check() {}\n}\n" \
            "impl<'a> Field<'a> for Days<F> {\n    #[tactic(auto)]\n    fn check() {}\n}\npub extern \"C\" fn last() {\n}\n" \
            "impl Form for Two {\n    const WIDTH: usize = 2;\n}\n"
        self.assertIn("sums::CurveSums::factors", functions("curves"))
        self.assertEqual(list(functions_of(source, "a/b")), [
            (2, "a::b::Ring::new"), (6, "a::b::PairFromRingU64::from"), (9, "a::b::OptionField::check"), (12, "a::b::Tuple2Field::check"),
            (15, "a::b::DaysField::check"), (18, "a::b::last"), (21, "a::b::TwoForm::WIDTH")])


LOG = """\
./proofs/rates/add_day/Answers.antt:3:5: error: `loop-i-preserved`: the two types differ
./proofs/years/+take/Answers.antt:3:5: error: `returns-then`: the two types differ
./proofs/Worked.antt:9:1: error: `c5-factor`: expected type
note: src/rates.rt:9:1: it is not proved that the sum fits its type (`sum-a`); the facts known there allow values at which this goal is false
note: src/rates.rt:9:7: `search` found no proof (`bounds-a`); `search` gave up at one of its limits
fn k::rates::add_day: not proved
fn k::rates::sum_days: proved
fn k::roots::roots: no proof: expected answers in ./proofs/roots/roots/Answers.antt; `search` did not prove `mul-lower`, `returns`
fn k::other: no proof: it calls `k::roots::roots`, which is not proved
"""


class Logs(unittest.TestCase):
    def silent(self, comment):
        return edit_logs.silent("k", f"# {comment}\nfile: src/a.rt\nold: 1\nnew: 2\n", LOG)

    def test_a_fact_has_its_error_where_its_function_is(self):
        self.assertEqual(self.silent("A slip: `loop-i-preserved` of rates::add_day and `returns-then` of years::take no longer hold."), [])
        self.assertEqual(self.silent("A slip: `loop-i-preserved` of rates::sum_days no longer holds."), ["loop-i-preserved of rates::sum_days"])
        self.assertEqual(self.silent("A slip: `returns` of rates::add_day no longer holds."), ["returns of rates::add_day"])

    def test_a_goal_that_the_answers_leave_out(self):
        self.assertEqual(self.silent("A slip: `sum-a` and `bounds-a` of rates::add_day no longer hold."), [])
        self.assertEqual(self.silent("A slip: `sum-a` of rates::sum_days no longer holds."), ["sum-a of rates::sum_days"])

    def test_a_function_without_a_proof_file(self):
        self.assertEqual(self.silent("A slip: `mul-lower` and `returns` of roots::roots no longer hold."), [])
        self.assertEqual(self.silent("A slip: `lower` of roots::roots no longer holds."), ["lower of roots::roots"])
        self.assertEqual(self.silent("A slip: `mul-lower` of other no longer holds."), ["mul-lower of other"])

    def test_the_first_line(self):
        said = edit_logs.said_of("rt: must-fail k/a.edit: refused, as it must be: ./proofs/f/Answers.antt:3:5: error: `returns`: it differs\n"
                                 "rt: k: trying its must-fail edits (1)\nrt: must-fail k/b.edit: BAD EDIT\n")
        self.assertEqual(said, {"k/a": "./proofs/f/Answers.antt:3:5: error: `returns`: it differs"})
        self.assertEqual(edit_logs.silent("k", "# A slip: `returns` of f no longer holds.\nfile: src/a.rt\n", said["k/a"]), [])
        source = "impl Held {\n    pub fn new() -> u64\n    {\n        1\n    }\n}\n\nfn last<'a>(x: u64)\n    ensures { x }\n{\n    x\n}\n"
        self.assertEqual([edit_logs.function_at(source, *at) for at in (("lib", 2), ("a/b", 4), ("a", 8), ("main", 11))],
                         ["Held::new", "a::b::Held::new", "a::last", "last"])

    def test_the_function_behind_attributes(self):
        """The prover's note of a function is at its first attribute, not at its head."""
        source = "fn first() {\n}\n\n#[tactic(auto, using(a::b))]\n#[inline]\npub fn second() {\n}\n\nimpl Held {\n    #[must_use]\n    fn third() {\n    }\n}\n"
        self.assertEqual([edit_logs.function_at(source, "m", line) for line in (1, 2, 4, 5, 6, 10, 11)],
                         ["m::first", "m::first", "m::second", "m::second", "m::second", "m::Held::third", "m::Held::third"])

    def test_the_names_of_functions(self):
        """As rt says them: a trait's with the type and the trait, and of the trait's arguments no lifetime."""
        source = ("pub(crate) fn first() {\n}\n\nimpl<'a, F: Form> Field<'a> for Days<F> {\n    fn read() {\n    }\n}\n\n"
                  "impl From<Result<u64, Refusal>> for HostUfr {\n    fn from() {\n    }\n}\n")
        self.assertEqual([path for _, path in functions_of(source, "m")],
                         ["m::first", "m::DaysField::read", "m::HostUfrFromResultU64Refusal::from"])

    def said(self, comment, statuses):
        """The words after `check` of each call of rt, and what is said at the end."""
        calls = []
        with mock.patch.object(edit_logs, "run_rt", lambda folder, *words: (calls.append(words[1:]), (statuses[len(calls) - 1], len(calls)))[1]):
            said = edit_logs.said_by_check("crates/k", comment)
        return calls, said

    def test_what_is_checked(self):
        one = "A slip: `returns` of f and `loop-i-init` of a::g no longer hold."
        self.assertEqual(self.said(one, [1]), ([("--only", "a::g", "--only", "f")], 1))
        self.assertEqual(self.said(one, [2, 1]), ([("--only", "a::g", "--only", "f"), ()], 2))  # rt knows no such function
        self.assertEqual(self.said("A slip. Refused by row-one.", [1]), ([()], 1))
        self.assertEqual(self.said("A slip: `returns` of f no longer holds. Refused by row-one.", [1]), ([()], 1))

    def test_a_statement(self):
        self.assertEqual(self.silent("A slip. Refused by c5-factor and c6-factor."), ["c6-factor"])


# Checks all of a copy, in which no edit may be, and a crate of a copy: refuses it where the edit is in, and waits before that, told to.
RT = """#!/bin/sh
if [ "$1 $2" = 'all check' ]; then
  [ ! -e "$STAND_IN/unproved" ] || { echo 'rt: low NOT PROVED'; exit 1; }
  grep -q 'old text' crates/a/src/lib.rt; exit
fi
[ ! -e "$STAND_IN/slow" ] || { : > "$STAND_IN/started"; sleep 600; }
echo 'fn a::f: no proof: `search` did not prove `returns`'
exit 1
"""


class Copies(unittest.TestCase):
    """Where edit_logs.py puts its copies of the crates, by a checkout of one crate and a stand-in for rt."""

    def setUp(self):
        folder = tempfile.TemporaryDirectory()
        self.addCleanup(folder.cleanup)
        self.root, self.stand_in, self.temporary = (Path(folder.name, name) for name in ("checkout", "rt", "temporary"))
        for name, text in {"crates.txt": "low:\na: low\nother: a\n", "crates/a/src/lib.rt": "old text", "crates/a/src/out/b.rt": "",
                           "crates/a/out/kept.antt": "", "crates/low/src/lib.rt": "old text", "crates/other/src/lib.rt": "",
                           "crates/a/must-fail/slip.edit": "# A slip: `returns` of f no longer holds.\nfile: src/lib.rt\nold: old\nnew: wrong\n"}.items():
            (self.root / name).parent.mkdir(parents=True, exist_ok=True)
            (self.root / name).write_text(text)
        shutil.copytree(ROOT / "tests", self.root / "tests", ignore=shutil.ignore_patterns("__pycache__", "test_*"))
        for place in (self.stand_in, self.temporary):
            place.mkdir()
        (self.stand_in / "rt").write_text(RT)
        (self.stand_in / "rt").chmod(0o755)
        self.command = [sys.executable, "-m", "tests.mistakes.edit_logs"]
        self.how = {"cwd": self.root, "env": os.environ | {"PATH": f"{self.stand_in}:{os.environ['PATH']}", "STAND_IN": str(self.stand_in),
                                         "TMPDIR": str(self.temporary)}, "stdout": subprocess.PIPE, "text": True}

    def sources_outside(self):
        """The sources in the checkout that no crate has, which `rt ci` refuses."""
        return [path for path in self.root.rglob("*") if path.suffix in (".rt", ".antt") and path.relative_to(self.root).parts[0] != "crates"]

    def test_a_call_that_is_killed(self):
        (self.stand_in / "slow").touch()
        run = subprocess.Popen(self.command, **self.how, start_new_session=True)
        try:
            while not (self.stand_in / "started").exists():
                time.sleep(0.01)
            self.assertEqual(self.sources_outside(), [])
        finally:
            os.killpg(run.pid, signal.SIGKILL)
            run.communicate()
        self.assertEqual(self.sources_outside(), [])
        trees = list(self.temporary.iterdir())
        self.assertEqual(len(trees), 2)  # one of all crates, as they are, and one of the crate with its edit
        for tree in trees:
            copied = sorted(str(path.relative_to(tree)) for path in tree.rglob("*") if path.is_file())
            self.assertEqual(copied, ["crates.txt", "crates/a/src/lib.rt", "crates/a/src/out/b.rt", "crates/low/src/lib.rt"])
            self.assertEqual((tree / "crates.txt").read_text(), "low:\na: low\n")
        self.assertEqual(sorted((tree / "crates/a/src/lib.rt").read_text() for tree in trees), ["old text", "wrong text"])
        (self.stand_in / "slow").unlink()
        run = subprocess.run(self.command, **self.how)
        self.assertEqual((run.returncode, run.stdout), (0, "1 edits, 0 by their first line, 0 not refused as their comments say\n"))
        self.assertEqual(list(self.temporary.iterdir()), [])

    def test_a_crate_that_is_not_proved_as_it_is(self):
        (self.stand_in / "unproved").touch()
        run = subprocess.run(self.command, **self.how, stderr=subprocess.PIPE)
        self.assertEqual((run.returncode, run.stdout), (1, ""))
        self.assertTrue(run.stderr.startswith("edit_logs: not proved as they are, so edits show nothing: a\nrt: low NOT PROVED"), run.stderr)
        self.assertEqual(list(self.temporary.iterdir()), [])

    def test_copies_of_a_call_that_runs(self):
        """They stay: only those of a process that is gone are removed."""
        other = self.temporary / f"{edit_logs.COPIES}{os.getpid()}-x"
        other.mkdir()
        subprocess.run(self.command, **self.how)
        self.assertTrue(other.is_dir())


if __name__ == "__main__":
    unittest.main()
