"""tools/casefile shorten, which goes through the engine: python3 -m unittest discover -s hosts/python/tests."""

import os
import subprocess
import sys
import tempfile
import unittest
from pathlib import Path

ROOT = Path(__file__).resolve().parents[3]
sys.path[:0] = [str(ROOT / "hosts/python"), str(ROOT), str(ROOT / "tools")]
import ginghamowl
from casetext import read, warnings_of
from common import shortest
from tests.inputs import examples
from tests.reference import reference

CASES = sorted(ROOT.glob("cases/*.case"))
FUND = (ROOT / "cases/fund.case").read_bytes()
SHORT_FUND = shortest(reference.read(FUND))


class Shorten(unittest.TestCase):
    def run_tool(self, *words, redirected="", given=b""):
        """Status, standard output and standard error; `redirected` is what the shell shall redirect."""
        command = ["bash", "-c", f'"$@" {redirected}', "bash", sys.executable, ROOT / "tools/casefile", "shorten", *words]
        run = subprocess.run(list(map(str, command)), input=given, capture_output=True)
        self.assertNotIn(b"Traceback", run.stderr)
        return run.returncode, run.stdout, run.stderr.decode()

    def test_examples(self):
        """The shortest file, with the warnings that other commands give; or the sentence of the refusal."""
        for path in CASES:
            held, found = reference.read(path.read_bytes()), self.run_tool(path)
            if isinstance(held, reference.Refusal):
                said = f"{path}: refused, {held.number}: {ginghamowl.SENTENCES[held.number]}\n"
                self.assertEqual(found, (1, b"", said))
            else:
                said = "".join(f"warning: {warning}\n" for warning in warnings_of(read(path.read_bytes())))
                self.assertEqual(found, (0, shortest(held), said))

    def test_fields_left_out(self):
        held = examples.c1(amounts=dict.fromkeys(reference.AMOUNTS, 0))
        long, short = reference.encode(held, True, False, True), reference.encode(held, False, False, False)
        self.assertEqual((len(long), len(short)), (226, 160))
        for given in (long, short):
            self.assertEqual(self.run_tool("-", given=given)[:2], (0, short))

    def test_output_whole_or_not_at_all(self):
        with tempfile.TemporaryDirectory() as folder:
            given, out = Path(folder, "a.case"), Path(folder, "b.case")
            given.write_bytes(FUND + b"\0")
            self.assertEqual(self.run_tool(given, "-o", out)[:2], (1, b""))
            self.assertEqual(os.listdir(folder), ["a.case"])
            given.write_bytes(FUND)
            self.assertEqual(self.run_tool(given, "-o", out), (0, b"", ""))
            self.assertEqual(out.read_bytes(), SHORT_FUND)
            given.write_bytes(b"")
            self.assertEqual(self.run_tool(given, "-o", out)[:2], (1, b""))
            given.write_bytes(FUND)
            self.assertEqual(self.run_tool(given, "-o", given)[:2], (2, b""))
            self.assertEqual(self.run_tool(given, "-o", folder)[:2], (2, b""))
            self.assertEqual((given.read_bytes(), out.read_bytes()), (FUND, SHORT_FUND))
            self.assertEqual(sorted(os.listdir(folder)), ["a.case", "b.case"])

    def test_lost_output(self):
        for redirection in (">/dev/full", ">&-", "-o /dev/full"):
            self.assertEqual(self.run_tool("-", given=FUND, redirected=redirection)[:2], (2, b""), redirection)


if __name__ == "__main__":
    unittest.main()
