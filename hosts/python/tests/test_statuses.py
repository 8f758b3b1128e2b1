"""The exit statuses of the C example, the Rust example and python -m ginghamowl, beside full disks and closed streams."""

import os
import shutil
import subprocess
import sys
import tempfile
import unittest
from pathlib import Path

ROOT = Path(__file__).resolve().parents[3]
ACCEPTED, REFUSED, LONGEST = ROOT / "cases/fund.case", ROOT / "cases/refused_09.case", ROOT / "cases/longest.case"
VERSION = (ROOT / "VERSION").read_text().strip()
# Without PYTHONUNBUFFERED and the like: a buffer that can't be written is the harder case.
ENVIRONMENT = {name: value for name, value in os.environ.items() if not name.startswith(("PYTHON", "GINGHAMOWL"))}
ENVIRONMENT["PYTHONPATH"] = str(ROOT / "hosts/python")


class Statuses:
    """What holds for each of the three; `program` is how it is called."""

    reads_standard_input = True

    def run_program(self, *arguments, redirected="", **more):
        """The run; `redirected` is what the shell shall redirect."""
        command = ["bash", "-c", f'"$@" {redirected}', "bash", *self.program, *map(str, arguments)]
        run = subprocess.run(command, env=ENVIRONMENT, stderr=subprocess.PIPE, **({"stdout": subprocess.PIPE} | more))
        self.assertNotIn(b"Traceback", run.stderr)
        self.assertNotIn(b"panicked", run.stderr)
        return run

    def test_valued(self):
        run = self.run_program(ACCEPTED)
        self.assertEqual((run.returncode, run.stderr), (0, b""))
        self.assertTrue(run.stdout.endswith(b"RESERVETEKORT\n"))

    def test_refused(self):
        run = self.run_program(REFUSED)
        self.assertEqual((run.returncode, run.stderr), (1, b""))
        self.assertTrue(run.stdout.startswith(b"refused, 9: the UFR is out of limits"))

    def test_version(self):
        run = self.run_program("--version")
        self.assertEqual((run.returncode, run.stdout), (0, f"ginghamowl {VERSION}\n".encode()))

    def test_no_file_to_read(self):
        for path in ("no such file", ROOT, ""):
            run = self.run_program(path)
            self.assertEqual((run.returncode, run.stdout), (2, b""))
            self.assertNotEqual(run.stderr, b"")

    def test_wrong_calls(self):
        for arguments in ([], [ACCEPTED, ACCEPTED]):
            run = self.run_program(*arguments)
            self.assertEqual((run.returncode, run.stdout), (2, b""))
            self.assertIn(b"usage: ", run.stderr)

    def test_endless_file(self):
        run = self.run_program("/dev/zero", timeout=30)
        self.assertEqual((run.returncode, run.stdout[:11]), (1, b"refused, 3:"))

    def test_longest_file(self):
        """It is read to its end, and a byte that follows it is seen."""
        longest = LONGEST.read_bytes()
        verdict = LONGEST.with_suffix(".txt").read_bytes().splitlines()[-1].removeprefix(b"V ")
        for data, status, said in ((longest, 0, verdict), (longest[:-1], 1, b"refused, 1: "), (longest + b"\0", 1, b"refused, 2: ")):
            with tempfile.NamedTemporaryFile() as file:
                file.write(data)
                file.flush()
                run = self.run_program(file.name)
            self.assertEqual(run.returncode, status)
            self.assertIn(said, run.stdout)

    def test_lost_output(self):
        for argument in (ACCEPTED, REFUSED, "--version"):
            for redirection in (">/dev/full", ">&-", "2>&- >/dev/full", ">/dev/full 2>&1", ">&- 2>&-"):
                run = self.run_program(argument, redirected=redirection)
                self.assertEqual((run.returncode, run.stdout), (2, b""), (argument, redirection))
                self.assertEqual(run.stderr == b"", "2>" in redirection)

    def test_closed_pipe(self):
        for argument in (ACCEPTED, REFUSED):
            reader, writer = os.pipe()
            os.close(reader)
            run = self.run_program(argument, stdout=writer)
            os.close(writer)
            self.assertEqual((run.returncode, run.stderr.count(b"\n")), (2, 1), run.stderr)

    def test_output_that_nobody_keeps(self):
        self.assertEqual(self.run_program(ACCEPTED, stdout=subprocess.DEVNULL).returncode, 0)
        self.assertEqual(self.run_program(ACCEPTED, redirected=">/dev/null").returncode, 0)

    def test_standard_input(self):
        if not self.reads_standard_input:
            return
        with open(ACCEPTED, "rb") as file:
            self.assertEqual(self.run_program("-", stdin=file).returncode, 0)
        run = self.run_program("-", redirected="<&-")
        self.assertEqual((run.returncode, run.stdout), (2, b""))
        for data in (b"", ACCEPTED.read_bytes()[:100]):  # a pipe that does not wait for the rest
            reader, writer = os.pipe()
            os.set_blocking(reader, False)
            os.write(writer, data)
            run = self.run_program("-", stdin=reader)
            os.close(reader)
            os.close(writer)
            self.assertEqual((run.returncode, run.stdout), (2, b""))


class CExample(Statuses, unittest.TestCase):
    program = [str(ROOT / "hosts/target/example")]


@unittest.skipUnless(shutil.which("cargo"), "cargo is not installed")
class RustExample(Statuses, unittest.TestCase):
    program = [str(ROOT / "hosts/rust/target/debug/examples/value")]
    reads_standard_input = False

    @classmethod
    def setUpClass(cls):
        subprocess.run(["cargo", "build", "--offline", "--quiet", "--example", "value", "--target-dir", "target"],
                       cwd=ROOT / "hosts/rust", check=True)


class PythonProgram(Statuses, unittest.TestCase):
    program = [sys.executable, "-m", "ginghamowl"]

    def test_help(self):
        self.assertEqual(self.run_program("--help").returncode, 0)
        self.assertEqual(self.run_program("--help", redirected=">/dev/full").returncode, 2)

    def test_no_library(self):
        with tempfile.NamedTemporaryFile() as empty:
            for library in ("/no/such/library.so", empty.name, "libc.so.6"):
                run = subprocess.run([*self.program, ACCEPTED], env=ENVIRONMENT | {"GINGHAMOWL_LIBRARY": library},
                                     capture_output=True)
                self.assertEqual((run.returncode, run.stdout), (2, b""))
                self.assertIn(b"the engine's shared library can't be loaded", run.stderr)
                self.assertNotIn(b"Traceback", run.stderr)


class PythonUnbuffered(PythonProgram):
    program = [sys.executable, "-u", "-m", "ginghamowl"]


if __name__ == "__main__":
    unittest.main()
