"""docs/DECISIONS.md: the decisions are numbered one by one, the index by subject names each of them and nothing else, and what says that a
later decision withdrew or changed it names one that is later."""

import re
import unittest

from tests import ROOT

INDEX = "## Index by subject\n"


def decisions(page):
    """(number, text) of each paragraph that begins with a number."""
    return [(int(number), text) for number, text in re.findall(r"^(\d+)\. (.*)$", page, re.M)]


def numbers(cell):
    """The numbers of a cell such as `1, 3 to 5`."""
    found = []
    for part in cell.split(", "):
        first, _, last = part.partition(" to ")
        found += range(int(first), int(last or first) + 1)
    return found


def index(page):
    """{subject: its numbers} of the table of the index."""
    section = page.split(INDEX)[1].split("\n## ")[0]
    rows = re.findall(r"^\| (.*) \| (.*) \|$", section, re.M)[1:]
    return {subject: numbers(cell) for subject, cell in rows}


def faults(page):
    """What is wrong with the numbers of a page, in words."""
    known, named = [number for number, _ in decisions(page)], index(page)
    listed = {number for found in named.values() for number in found}
    wrong = [] if known == list(range(1, len(known) + 1)) else ["the numbers are not consecutive"]
    wrong += [f"{subject}: not in order, or twice" for subject, found in named.items() if found != sorted(set(found))]
    wrong += [f"{number} is not in the index" for number in known if number not in listed]
    wrong += [f"the index names {number}" for number in sorted(listed - set(known))]
    for number, text in decisions(page):
        later = [int(word) for mark in re.findall(r"\*\*(?:Changed|Withdrawn) by ([^*]*)\*\*", text) for word in re.findall(r"\d+", mark)]
        wrong += [f"{number} is said to be changed by {word}" for word in later if word <= number or word not in known]
    return wrong


class Decisions(unittest.TestCase):
    PAGE = (ROOT / "docs" / "DECISIONS.md").read_text("utf-8")

    def test_numbers_and_index(self):
        self.assertEqual(faults(self.PAGE), [])

    def test_something_is_looked_at(self):
        self.assertGreater(len(decisions(self.PAGE)), 300)
        self.assertGreater(len(index(self.PAGE)), 10)
        self.assertGreater(self.PAGE.count("**Withdrawn by "), 10)


class TestOfTheTest(unittest.TestCase):
    """A small page, with a fault at a time."""

    SMALL = (f"# Decisions\n\n{INDEX}\n| Subject | Decisions |\n|---|---|\n| The file | 1, 3 to 4 |\n| The working | 2, 3 |\n\n"
             "## Readings\n\n1. One. **Withdrawn by 3 and 4**: gone.\n2. Two.\n\n## More\n\n3. Three. **Changed by 4**: other.\n4. Four.\n")

    def test_small(self):
        self.assertEqual(faults(self.SMALL), [])
        for old, new, wrong in (
                ("2. Two.\n", "", ["the numbers are not consecutive", "the index names 2"]),
                ("2. Two.", "5. Five.", ["the numbers are not consecutive", "5 is not in the index", "the index names 2"]),
                ("4. Four.", "4. Four.\n4. Four.", ["the numbers are not consecutive"]),
                ("3 to 4", "3", ["4 is not in the index"]),
                ("3 to 4", "3 to 5", ["the index names 5"]),
                ("1, 3 to 4", "3 to 4, 1", ["The file: not in order, or twice"]),
                ("1, 3 to 4", "1, 1, 3 to 4", ["The file: not in order, or twice"]),
                ("Changed by 4", "Changed by 3", ["3 is said to be changed by 3"]),
                ("Withdrawn by 3 and 4", "Withdrawn by 3 and 9", ["1 is said to be changed by 9"])):
            self.assertEqual(self.SMALL.count(old), 1, old)
            self.assertEqual(faults(self.SMALL.replace(old, new)), wrong, new)


if __name__ == "__main__":
    unittest.main()
