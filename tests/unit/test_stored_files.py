"""The runner of the writers runs each and says which fails; a stored file that is another, or is missing, is told."""

import contextlib
import io
import sys
import tempfile
import unittest
from pathlib import Path
from types import SimpleNamespace
from unittest import mock

from tests.writers import __main__ as runner
from tests.writers import stored


class Runner(unittest.TestCase):
    def run_writers(self, words, *ends):
        """The status, what is said, and the writers that ran; each ends by a call of its own."""
        ran = []

        def writer(number, end):
            def main(said):
                ran.append((number, said))
                return end()
            return SimpleNamespace(__name__=f"writer {number}", main=main)

        writers = [writer(number, end) for number, end in enumerate(ends)]
        with mock.patch.object(runner, "WRITERS", writers), contextlib.redirect_stderr(io.StringIO()) as said:
            return runner.main(words), said.getvalue(), ran

    def test_all_end_well(self):
        for words in ([], ["--check"]):
            self.assertEqual(self.run_writers(words, lambda: None, lambda: 0, lambda: sys.exit(0)),
                             (0, "", [(number, words) for number in range(3)]))

    def test_every_failure_is_told(self):
        """By a status, or by a sentence; those after it run too."""
        status, said, ran = self.run_writers(["--check"], lambda: 1, lambda: sys.exit("a is another"), lambda: sys.exit(1), lambda: None)
        self.assertEqual((status, said), (1, "a is another\nfailed: writer 0, writer 1, writer 2\n"))
        self.assertEqual(len(ran), 4)

    def test_wrong_words(self):
        for words in (["--chek"], ["--check", "--check"], ["cases"]):
            with self.assertRaises(SystemExit) as ended:
                self.run_writers(words, lambda: None)
            self.assertIn("[--check]", ended.exception.code)

    def test_each_is_named_once(self):
        self.assertEqual(len(set(runner.WRITERS)), len(runner.WRITERS))
        self.assertTrue(all(callable(writer.main) for writer in runner.WRITERS))


class Stored(unittest.TestCase):
    def setUp(self):
        place = tempfile.TemporaryDirectory()
        self.addCleanup(place.cleanup)
        self.root = Path(place.name)
        patched = mock.patch.object(stored, "ROOT", self.root)
        patched.start()
        self.addCleanup(patched.stop)

    def test_written_and_checked(self):
        contents = {"a/b": b"one", "c": b"two"}
        stored.write_or_check(contents, False)
        self.assertEqual({path: (self.root / path).read_bytes() for path in contents}, contents)
        stored.write_or_check(contents, True)

    def test_another_or_none(self):
        stored.write_or_check({"a": b"one", "b": b"two", "c": b"three"}, False)
        (self.root / "a").write_bytes(b"One")
        (self.root / "c").unlink()
        with self.assertRaises(SystemExit) as ended:
            stored.write_or_check({"a": b"one", "b": b"two", "c": b"three"}, True)
        self.assertEqual(ended.exception.code, "not what its writer writes: a, c")
        self.assertEqual((self.root / "a").read_bytes(), b"One")  # a check writes nothing


if __name__ == "__main__":
    unittest.main()
