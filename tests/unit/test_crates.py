"""crates.txt and the crates that it lists: groups in the order of reading, dependencies that are used, definitions without a function."""

import glob
import os
import re
import unittest

from tests import ROOT
from tests.mistakes import mutants
from tests.mistakes.edits import functions, read_text

# A crate that holds a value of a type without naming it: its proofs name the crate of the type.
HELD = {("searches", "searchmodel")}
# The functions of crates of statements: each has a result as its contract, takes nothing and does nothing.
RESULTS = {"twelvecases": {"twelve_cases"}}


def listed(text):
    """(group, crate, dependencies) of each line of crates.txt; a group is the comment above it."""
    group = None
    for line in text.splitlines():
        if line.startswith("#"):
            group = line.removeprefix("# ")
        elif line:
            words, _, deps = line.partition(":")
            yield group, words.split()[0], deps.split()  # behind the name may stand what the crate is
        else:
            group = None


def named(crate):
    """The crates that the files of a crate name, in code and in proofs."""
    texts = [read_text(path) for kind in ("src/**/*.rt", "specs/**/*.antt", "proofs/**/*.antt")
             for path in glob.glob(os.path.join(ROOT, "crates", crate, kind), recursive=True)]
    return {name for text in texts for name in re.findall(r"\bRattle\.([a-z_]+)\.|\b([a-z_]+)::", text) for name in name if name}


LINES = list(listed(read_text(os.path.join(ROOT, "crates.txt"))))


class Crates(unittest.TestCase):
    def test_each_is_in_a_group_and_says_what_it_holds(self):
        for group, crate, _ in LINES:
            with self.subTest(crate=crate):
                self.assertTrue(group)
                root = next(path for path in ("lib.rt", "main.rt") if os.path.exists(os.path.join(ROOT, "crates", crate, "src", path)))
                self.assertRegex(read_text(os.path.join(ROOT, "crates", crate, "src", root)), r"\A// [A-Z]")

    def test_each_dependency_is_used(self):
        for _, crate, deps in LINES:
            with self.subTest(crate=crate):
                self.assertEqual(len(deps), len(set(deps)))
                self.assertEqual([dep for dep in deps if dep not in named(crate) and (crate, dep) not in HELD], [])

    def test_definitions_have_no_function(self):
        for crate in set().union(*mutants.APART.values()):
            with self.subTest(crate=crate):
                self.assertEqual(functions(crate), RESULTS.get(crate, set()))

    def test_unit_tests_stand_where_nothing_depends_on_them(self):
        """A crate with tests is proved twice, and a test that changes is to have no other crate proved again."""
        paths = glob.glob(os.path.join(ROOT, "crates", "*", "src", "**", "*.rt"), recursive=True)
        tested = {os.path.relpath(path, ROOT).split(os.sep)[1] for path in paths if "#[test]" in read_text(path)}
        self.assertEqual(tested, {"trials"})
        self.assertEqual([crate for _, crate, deps in LINES if tested & set(deps)], [])

    def test_nothing_depends_on_what_takes_long(self):
        long = set(mutants.APART["long"])
        self.assertEqual([crate for _, crate, deps in LINES if long & set(deps)], [])

    def test_of_the_test(self):
        self.assertEqual(list(listed("# order\n\n# one\na:\nb: a d\n\nc: b\n")), [("one", "a", []), ("one", "b", ["a", "d"]), (None, "c", ["b"])])
        self.assertIn("theory", named("reader"))
        self.assertNotIn("engine", named("reader"))


if __name__ == "__main__":
    unittest.main()
