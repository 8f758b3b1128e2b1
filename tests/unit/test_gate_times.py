"""gate_times.py on a tree of four crates whose checks are a stand-in's."""

import contextlib
import io
import os
import tempfile
import unittest
from pathlib import Path
from unittest import mock

from tests.mistakes import gate_times

CRATES = """# first: the program
program: low_1 io high libc
high: low_1 mid2

mid2: low_1
low_1: # below high
"""
# Notes the calls. high works for some time, in a program of its own, and mid2 only waits.
RT = """#!/bin/sh
echo "$PWD $* $RT_JOBS" >> "$STAND_IN/calls"
name=$(basename "$PWD")
case $name in
  high) sh -c 'turn=0; while [ $turn -lt 60000 ]; do turn=$((turn + 1)); done' ;;
  mid2) sleep 0.3 ;;
  program) echo 'rt: high: begins with what a check kept in /elsewhere/crates/high' ;;
esac
[ ! -e "$STAND_IN/$name" ] || { cat "$STAND_IN/$name"; exit 1; }
"""


class InAFolder(unittest.TestCase):
    def setUp(self):
        folder = tempfile.TemporaryDirectory()
        self.addCleanup(folder.cleanup)
        self.folder = Path(folder.name).resolve()

    def call(self, *words):
        """The status of a command line, the words of each row that it prints, and what it says of failures."""
        out, said = io.StringIO(), io.StringIO()
        with contextlib.redirect_stdout(out), contextlib.redirect_stderr(said):
            status = gate_times.main([str(word) for word in words])
        return status, [line.split() for line in out.getvalue().splitlines()], said.getvalue()

    def write(self, name, text):
        path = self.folder / name
        path.parent.mkdir(parents=True, exist_ok=True)
        path.write_text(text)
        return path


class Checks(InAFolder):
    def setUp(self):
        super().setUp()
        self.write("bin/rt", RT).chmod(0o755)
        self.write("tree/crates.txt", CRATES)
        for name in ("low_1/must-fail/a.edit", "low_1/must-fail/b.edit", "low_1/must-fail/notes.txt", "high/must-fail/c.edit", "mid2/src/lib.rt",
                     "program/src/lib.rt"):
            self.write(f"tree/crates/{name}", "")
        changes = mock.patch.dict(os.environ, PATH=f"{self.folder}/bin:{os.environ['PATH']}", STAND_IN=f"{self.folder}/bin", RT_JOBS="4")
        changes.start()
        self.addCleanup(changes.stop)

    def test_rows(self):
        with mock.patch.object(gate_times, "ROOT", str(self.folder / "tree")):
            status, rows, said = self.call("--checks")
        self.assertEqual((status, said, {len(row) for row in rows}), (0, "", {7}))
        self.assertEqual([row[:3] for row in rows], [["low_1", "edits", "2"], ["mid2", "edits", "0"], ["high", "edits", "1"],
                                                     ["program", "edits", "0"], ["all", "edits", "3"]])
        calls = (self.folder / "bin/calls").read_text().splitlines()
        self.assertEqual(calls, [f"{self.folder}/tree/crates/{name} check 1" for name in ("low_1", "mid2", "high", "program")])
        low, mid, high, program, both = ([float(row[3]), float(row[5])] for row in rows)
        self.assertLess(max(low[0], mid[0], program[0]), high[0])  # although to wait for mid2 takes longer
        for (seconds, gate), count in zip((low, mid, high, program), (3, 1, 2, 1)):
            self.assertAlmostEqual(gate, count * seconds, delta=0.02)
        for which in (0, 1):
            self.assertAlmostEqual(both[which], sum(part[which] for part in (low, mid, high, program)), delta=0.03)

    def test_a_check_that_fails(self):
        self.write("bin/mid2", "rt: mid2 NOT PROVED (exit 1, 9 s)\n")
        status, rows, said = self.call("--checks", self.folder / "tree")
        self.assertEqual((status, [row[0] for row in rows]), (1, ["low_1"]))
        self.assertEqual(said, "gate_times: the check of mid2 failed:\nrt: mid2 NOT PROVED (exit 1, 9 s)\n")

    def test_over_kept_work(self):
        self.write("bin/rt", "#!/bin/sh\necho 'rt: low_1: begins with what a check kept in /elsewhere/crates/low_1'\n")
        _, rows, _ = self.call("--checks", self.folder / "tree")
        self.assertEqual([row[0] for row in rows if row[-3:] == ["over", "kept", "work"]], ["low_1"])

    def test_nothing_to_measure(self):
        for text in ("# none\n", "a: b\nb: a\n"):
            self.write("tree/crates.txt", text)
            self.assertEqual(self.call("--checks", self.folder / "tree")[:2], (1, []))
        self.assertEqual(self.call("--checks", self.folder)[:2], (1, []))
        self.write("tree/crates.txt", CRATES)
        with mock.patch.dict(os.environ, PATH=f"{self.folder}/tree"):  # where no rt is
            self.assertEqual(self.call("--checks", self.folder / "tree")[:2], (1, []))

    def test_wrong_words(self):
        for words in ((), ("a",), ("a", "b"), ("--wrong",), ("-h",), ("a", "--checks"), ("--checks", "a", "b"), ("--checks", "--checks"), ("--check",)):
            self.assertEqual(self.call(*words), (2, [], gate_times.USAGE + "\n"))


if __name__ == "__main__":
    unittest.main()
