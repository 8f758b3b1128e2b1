"""The Python package beside the reference in tests/: python3 -m unittest discover -s hosts/python/tests."""

import json
import pickle
import subprocess
import sys
import tempfile
import unittest
from concurrent.futures import ThreadPoolExecutor
from dataclasses import replace
from itertools import product
from pathlib import Path

HERE = Path(__file__).resolve()
sys.path[:0] = [str(HERE.parents[1]), str(HERE.parents[3])]
import ginghamowl
from common import BOTH_FORMS, C1_FILE, damaged_files, seeded_files
from ginghamowl import Bracket, Figures, Kind, Point, Refused, Verdict, _library
from tests.inputs import examples, files
from tests.reference import reference


def has_four_bytes(data):
    """Whether the map announces days in four bytes."""
    return len(data) > 1 and data[1] >> 7 == 1


def brackets(pairs):
    return tuple(Bracket(*pair) for pair in pairs)


class BesideTheReference(unittest.TestCase):
    def test_accepted_files(self):
        fixed = [(C1_FILE, examples.c1())] + [(reference.encode(case, True, bool(case.bonds), True), case)
                                              for two in (examples.up(), examples.down(), examples.bent())
                                              for case in (two, files.finer_case(two))]
        verdicts = set()
        for data, case in [*fixed, *seeded_files(14, 50)]:
            rounded = reference.Rounded(case)
            valuation = ginghamowl.value(data)
            self.assertEqual(valuation.factors, brackets(rounded.factors[1:]))
            self.assertEqual(valuation.zero_rates, brackets(rounded.zero_rates[1:]))
            self.assertEqual(valuation.figures, Figures(*brackets(getattr(rounded, name) for name in reference.MONEY)))
            self.assertEqual(valuation.verdict.word, rounded.verdict)
            self.assertEqual(valuation.listing().encode(), reference.listing(data))
            offset, length = reference.rates_part(data)
            self.assertEqual(ginghamowl.rates_part(data), data[offset:offset + length])
            self.assertEqual(length, 60 * case.rate_bytes * len(case.days))
            self.assertEqual(ginghamowl.refusal(data), 0)
            verdicts.add((case.rate_bytes, valuation.verdict))
        self.assertEqual(verdicts, set(product(BOTH_FORMS, Verdict)))

    def test_rewritten_files(self):
        """A file with days in two bytes, rewritten to four with every rate times 100: other bytes, and the same valuation."""
        for data, _ in seeded_files(14, 40, [2]):
            other = files.rewritten(data)
            self.assertNotEqual(other, data)
            self.assertEqual(len(ginghamowl.rates_part(other)), 2 * len(ginghamowl.rates_part(data)))
            self.assertEqual(ginghamowl.value(other), ginghamowl.value(data))

    def test_damaged_files(self):
        seen = set()
        for data in damaged_files(2, 6_000):
            answer = reference.read(data)
            number = answer.number if isinstance(answer, reference.Refusal) else 0
            self.assertEqual(ginghamowl.refusal(data), number)
            if number:
                for function in (ginghamowl.value, ginghamowl.rates_part):
                    with self.assertRaises(Refused) as caught:
                        function(data)
                    self.assertEqual(caught.exception.number, number)
            seen.add((has_four_bytes(data), number))
        self.assertEqual(seen, set(product([False, True], range(13))))


class Package(unittest.TestCase):
    def test_c1(self):
        valuation = ginghamowl.value(C1_FILE)
        self.assertEqual(valuation.figures.l, Bracket(100_000_000, 100_000_000))
        self.assertEqual(valuation.figures.s6.width, 0)
        self.assertIs(valuation.verdict, Verdict.VRIJ_VERMOGEN)
        self.assertEqual(valuation.factor(1), Bracket(10 ** 12, 10 ** 12))
        self.assertEqual(valuation.zero_rate(20), Bracket(0, 0))
        for term, error in ((0, ValueError), (121, ValueError), (-1, ValueError), (1.0, TypeError), (True, TypeError)):
            with self.assertRaises(error):
                valuation.factor(term)

    def test_window(self):
        valuation = ginghamowl.value(reference.encode(examples.up(), True, True, True))
        for term in range(1, 121):
            factor = valuation.factor(term)
            self.assertEqual(valuation.window_point(term), Point(Kind.FACTOR, factor.lower, factor.upper))
        for number, (_, figure) in enumerate(valuation.figures, 121):
            self.assertEqual(valuation.window_point(number), Point(Kind.MONEY, figure.lower, figure.upper))
        for number in (0, 131, 2 ** 64 - 1, 2 ** 64, 2 ** 64 + 1, -1, -2 ** 64 + 1):
            self.assertEqual(valuation.window_point(number), Point(Kind.BLANK, 0.0, 0.0))
        for number in (1.0, True, "1", None):
            with self.assertRaisesRegex(TypeError, "^a point's number is an int, not "):
                valuation.window_point(number)

    def test_window_over_short_buffers(self):
        """A valuation has 120 factors, so the engine itself is called here: a figure needs none, a factor its own two entries."""
        figures = _library.HostFigures(*(_library.HostBracket(2 * i + 1, 2 * i + 2) for i in range(10)))
        for lent in (0, 1, 2, 3, 238, 239, 240):
            factors = (_library.c_uint64 * lent)(*range(1000, 1000 + lent))
            shown = [_library.engine().window_point(point, factors, lent, figures) for point in range(132)]
            told = [(point.kind, point.lower, point.upper) for point in shown]
            terms = [(1, 1000.0 + i, 1001.0 + i) if i + 1 < lent else (0, 0.0, 0.0) for i in range(0, 240, 2)]
            money = [(2, 2.0 * i + 1, 2.0 * i + 2) for i in range(10)]
            self.assertEqual(told, [(0, 0.0, 0.0), *terms, *money, (0, 0.0, 0.0)])

    def test_names_and_json(self):
        valuation = ginghamowl.value(reference.encode(examples.up(), True, True, True))
        names = [line.split()[0] for line in valuation.listing().splitlines()[:-1]]
        self.assertEqual([name for name, _ in valuation.figures], names)
        self.assertEqual(dict(valuation.figures)["S3"], valuation.figures.s3)
        for told in (valuation.figures.as_dict(), valuation.as_dict()):
            self.assertEqual(json.loads(json.dumps(told)), told)
        told = json.loads(json.dumps(valuation.as_dict()))
        again = ginghamowl.Valuation(brackets(told["factors"]), brackets(told["zero_rates"]),
                                     Figures(*brackets(told["figures"][name] for name in names)),
                                     {verdict.word: verdict for verdict in Verdict}[told["verdict"]])
        self.assertEqual(again, valuation)

    def test_numbers_that_would_be_cut(self):
        valuation = ginghamowl.value(C1_FILE)
        with_figure = lambda end: replace(valuation, figures=replace(valuation.figures, s4=Bracket(0, end)))
        with_factor = lambda end: replace(valuation, factors=(*valuation.factors[:-1], Bracket(end, 0)))
        for end, error in ((-1, ValueError), (2 ** 64, ValueError), (2 ** 64 + 7, ValueError), (7.0, TypeError),
                           (True, TypeError), ("7", TypeError), (None, TypeError)):
            calls = [with_figure(end).listing, lambda: with_figure(end).window_point(1), lambda: with_figure(end).window_point(0),
                     lambda: with_factor(end).window_point(1), lambda: with_factor(end).window_point(121)]
            for call in calls:
                with self.assertRaisesRegex(error, "^an end of a bracket is "):
                    call()
        self.assertIn("\nS4 0 18446744073709551615\n", with_figure(2 ** 64 - 1).listing())
        self.assertEqual(with_figure(2 ** 53).window_point(127), Point(Kind.MONEY, 0.0, 2.0 ** 53))
        self.assertEqual(with_figure(2 ** 53 + 1).window_point(127), Point(Kind.BLANK, 0.0, 0.0))
        for count in (0, 119, 121):
            with self.assertRaisesRegex(ValueError, "^a valuation has 120 factors"):
                replace(valuation, factors=(Bracket(1, 1),) * count).window_point(1)

    def test_refused(self):
        with self.assertRaisesRegex(Refused, "^refused, 1: the file is too short") as caught:
            ginghamowl.value(b"")
        self.assertEqual(pickle.loads(pickle.dumps(caught.exception)).number, 1)
        self.assertEqual(ginghamowl.refusal(bytes(ginghamowl.FILE_BYTES + 1)), 3)

    def test_what_a_file_may_be(self):
        for data in (C1_FILE, bytearray(C1_FILE), memoryview(C1_FILE)):
            self.assertEqual(ginghamowl.value(data), ginghamowl.value(C1_FILE))
        for data in ("00 76", 7, None, [0, 118]):
            with self.assertRaises(TypeError):
                ginghamowl.value(data)

    def test_threads(self):
        files = [C1_FILE, reference.encode(examples.up(), True, True, True), reference.encode(examples.down(), True, True, True)]
        alone = [ginghamowl.value(data) for data in files]
        with ThreadPoolExecutor(8) as pool:
            self.assertEqual(list(pool.map(ginghamowl.value, files * 100)), alone * 100)


class CommandLine(unittest.TestCase):
    def run_on(self, data, *options):
        with tempfile.NamedTemporaryFile(suffix=".case") as file:
            file.write(data)
            file.flush()
            run = subprocess.run([sys.executable, "-m", "ginghamowl", *options, file.name], cwd=HERE.parents[1],
                                 capture_output=True, text=True)
        return run.returncode, run.stdout

    def test_valued(self):
        status, out = self.run_on(C1_FILE)
        self.assertEqual((status, out.splitlines()[-1]), (0, "VRIJ VERMOGEN"))
        self.assertIn("\n   1   1.000000000000   1.000000000000      0.000 %      0.000 %\n", out)
        self.assertIn("\nL         1,000,000.00         1,000,000.00\n", out)
        self.assertEqual(self.run_on(C1_FILE, "--listing"), (0, reference.listing(C1_FILE).decode()))

    def test_refused(self):
        self.assertEqual(self.run_on(b"", "--listing"), (1, "R 1\n"))
        status, out = self.run_on(C1_FILE + b"\0")
        self.assertEqual((status, out), (1, f"refused, 2: {ginghamowl.SENTENCES[2]}\n"))


if __name__ == "__main__":
    unittest.main()
