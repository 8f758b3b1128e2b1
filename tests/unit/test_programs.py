"""What the comparisons expect of a refused file is what the reference says of it, and the program's output is cut as it is written."""

import unittest

from tests.compare import programs
from tests.inputs import files, limits
from tests.inputs.examples import c1
from tests.reference import reference


class Refused(unittest.TestCase):
    """The number alone tells all three answers."""

    def test_every_number(self):
        seen = set()
        for data in (data for _, _, rows in limits.groups() for _, data in rows):
            answer = reference.read(data)
            if isinstance(answer, reference.Refusal):
                seen.add(answer.number)
                self.assertEqual(programs.refused(answer.number), programs.expected(data))
        self.assertEqual(seen, set(range(1, 13)))


C1 = reference.encode(c1(), False, False, True)


class Written(unittest.TestCase):
    def test_cut_into_answers(self):
        """Of an accepted and a refused file."""
        expected = [programs.expected(data) for data in (C1, b"")]
        text = b"".join(part for answer in expected for part in answer)
        self.assertEqual(programs.answers_in(text, 2), expected)
        for wrong in (text + b"\n", text[:-1], b"?" + text, text * 2):
            with self.assertRaises(SystemExit):
                programs.answers_in(wrong, 2)


class WrittenSearches(unittest.TestCase):
    """A refused file, an accepted one, and another refused one."""

    EXPECTED = [programs.expected_searches(data) for data in (b"", C1, files.all_fields() + b"\0")]
    TEXT = b"".join(map(programs.written_searches, EXPECTED))

    def test_cut_into_searches(self):
        self.assertEqual(programs.searches_in(self.TEXT, 3), self.EXPECTED)
        self.assertEqual(programs.searches_in(b"", 0), [])

    def test_lines(self):
        """A line for each search, by hand: at 0 both results are 10^12, so both rates of the first 20 terms are 0."""
        lines = self.TEXT.decode().splitlines()
        self.assertEqual((len(lines), lines[0], lines[-1]), (242, "R 1", "R 2"))
        self.assertEqual([line.split()[:2] for line in lines[1:4] + lines[-3:-1]],
                         [["L", "1"], ["U", "1"], ["L", "2"], ["L", "120"], ["U", "120"]])
        self.assertTrue(lines[1].startswith("L 1 0 22000 0 10999 0 5499 0 2749 1375 2749 "), lines[1])
        self.assertTrue(lines[2].startswith("U 1 0 22000 0 11000 0 5500 0 2750 1376 2750 "), lines[2])
        self.assertTrue(all(line.endswith(" 2000 2000") for line in lines[1:41]))
        self.assertEqual({len(line.split()) for line in lines[1:-1]}, {34})

    def test_something_else(self):
        lines = self.TEXT.splitlines(keepends=True)
        changed = lambda old, new: self.TEXT.replace(old, new, 1)
        wrong = [self.TEXT + b"\n", self.TEXT[:-1], b" " + self.TEXT, self.TEXT * 2, b"".join(lines[1:]),
                 changed(b"L 1 ", b"L 01 "), changed(b"L 1 ", b"U 1 "), changed(b"L 1 ", b"L 2 "),
                 changed(b"L 1 ", b"L  1 "), changed(b"L 1 0 ", b"L 1 "), changed(b"L 1 0 ", b"L 1 -1 "),
                 changed(b"L 1 0 ", b"L 1 0 0 "), changed(b"L 1 0 ", b"L 1 00 "), changed(b" 2000\n", b" 2000 \n"),
                 changed(b"R 1\n", b"R 1"), changed(b"R 1\n", b"R 01\n"),
                 b"".join(lines[:1] + [lines[2], lines[1]] + lines[3:]),  # the upper rate first
                 b"".join(lines[:1] + lines[3:5] + lines[1:3] + lines[5:]),  # term 2 first
                 b"".join(lines[:3] + lines[5:]), b"".join(lines[:3] + lines[1:])]  # a term left out, a term twice
        for text in wrong:
            self.assertNotEqual(text, self.TEXT)
            with self.assertRaises(SystemExit):
                programs.searches_in(text, 3)


if __name__ == "__main__":
    unittest.main()
