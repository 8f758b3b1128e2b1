"""tests/compare/search.py passes searches that halve as the reference does, and reports each that does not."""

import contextlib
import io
import random
import unittest
from unittest import mock

from tests.compare import programs, search as compare_search
from tests.compare.programs import Search
from tests.compare.search import broken, differences, pair_faults, scan_faults
from tests.inputs.examples import c1, flat
from tests.reference import reference
from tests.reference.reference import ENDS, LOWER, UPPER, Refusal, StepsLeft
from tests.writers import search as search_statements


def file_of(case):
    return reference.encode(case, True, False, True)


FLAT, ZERO = file_of(c1(days=flat(-137))), file_of(c1(ufr=0))  # whole steps, to term 20 and at all terms
RIGHT = {data: programs.expected_searches(data) for data in (FLAT, ZERO, b"")}
RISING = Search(LOWER, 7, reference.halvings(lambda step: True, LOWER))
FALLING = Search(UPPER, 7, reference.halvings(lambda step: True, UPPER))


# ---------------------------------------------------------------- wrong ways to halve

def middle_lost(left, passes, end):
    """The step that passes is ruled out too, unless it is alone."""
    found = RIGHT_HALVED(left, passes, end)
    if found.first == found.last or not passes(reference.middle(left, end)):
        return found
    return StepsLeft(found.first + 1, found.last) if end == LOWER else StepsLeft(found.first, found.last - 1)


def middle_kept(left, passes, end):
    """The step that fails is left."""
    step = reference.middle(left, end)
    if left.first == left.last or passes(step):
        return RIGHT_HALVED(left, passes, end)
    return StepsLeft(left.first, step) if end == LOWER else StepsLeft(step, left.last)


def other_half(left, passes, end):
    return RIGHT_HALVED(left, lambda step: not passes(step), end)


def one_left_early(left, passes, end):
    """Of four steps the search goes on to the end, in one test."""
    while left.last - left.first < 4 and left.first < left.last:
        left = RIGHT_HALVED(left, passes, end)
    return RIGHT_HALVED(left, passes, end)


def not_narrowing(left, passes, end):
    """No test rules out anything once ten steps are left."""
    return left if left.last - left.first < 10 else RIGHT_HALVED(left, passes, end)


def quarter(left, end):
    return left.first + (left.last - left.first + 3) // 4


def earlier_middle(left, end):
    return (left.first + left.last) // 2


def later_middle(left, end):
    return (left.first + left.last + 1) // 2


def strict(step, factor, t, end):
    result = reference.discounted(step - 2_000, t, end)
    return result > factor[UPPER] if end == LOWER else result < factor[LOWER]


def own_end(step, factor, t, end):
    """The lower result against the lower factor, the upper against the upper one."""
    result = reference.discounted(step - 2_000, t, end)
    return result >= factor[LOWER] if end == LOWER else result <= factor[UPPER]


def a_year_less(step, factor, t, end):
    return RIGHT_PASSES(step, factor, t - 1, end)


RIGHT_HALVED, RIGHT_PASSES = reference.halved, reference.step_passes

# (the reference's function, another in its place, which parts of the comparison see it)
ALL_PARTS = {"numbers", "promise", "scans"}
WRONG = [("halved", middle_lost, {"numbers", "scans"}), ("halved", middle_kept, ALL_PARTS),
         ("halved", other_half, {"numbers", "scans"}), ("halved", one_left_early, {"numbers"}),
         ("halved", not_narrowing, ALL_PARTS), ("middle", quarter, ALL_PARTS), ("middle", earlier_middle, ALL_PARTS),
         ("middle", later_middle, ALL_PARTS), ("step_passes", strict, {"numbers", "scans"}),
         ("step_passes", own_end, {"numbers", "scans"}), ("step_passes", a_year_less, {"numbers", "scans"})]


def written_by(name, wrong, data):
    """The searches of a file that a program writes which has another function in place of one of the reference's."""
    with mock.patch.object(reference, name, wrong):
        text = programs.written_searches(programs.expected_searches(data))
    return programs.searches_in(text, 1)[0]


# ---------------------------------------------------------------- wrong numbers

def moved(search, tests, first=0, last=0):
    """The search with the steps left after this many tests moved."""
    left = list(search.left)
    left[tests] = StepsLeft(left[tests].first + first, left[tests].last + last)
    return search._replace(left=left)


def delayed(search, tests):
    """The search with one test that rules out nothing."""
    return search._replace(left=(search.left[:tests] + search.left[tests - 1:])[:16])


def changed(found, at, search):
    return found[:at] + [search] + found[at + 1:]


class Ways(unittest.TestCase):
    """Which parts see a way to halve, of two files and a term."""

    RATES = {data: compare_search.scanned((data, 2)) for data in (FLAT, ZERO)}
    ANSWERS = {data: programs.expected(data) for data in (FLAT, ZERO)}

    def parts(self, name, way):
        seen = set()
        for data in (FLAT, ZERO):
            found = written_by(name, way, data)
            faults = {"numbers": differences(found, RIGHT[data]), "promise": [list(broken(one)) for one in found],
                      "scans": pair_faults((data, 2), self.RATES[data], found, self.ANSWERS[data])}
            seen |= {part for part, of_part in faults.items() if any(of_part)}
        return seen

    def test_right(self):
        self.assertEqual(self.parts("halved", RIGHT_HALVED), set())

    def test_wrong(self):
        for name, way, parts in WRONG:
            self.assertEqual(self.parts(name, way), parts, way)


class Statements(unittest.TestCase):
    """The statements that tests/writers writes about the search are others for each wrong way to halve."""

    def test_wrong(self):
        right = search_statements.search_cases()
        for name, way, _ in WRONG:
            with mock.patch.object(reference, name, way):
                self.assertNotEqual(search_statements.search_cases(), right, way)


class NumberForNumber(unittest.TestCase):
    def test_right(self):
        for expected in RIGHT.values():
            self.assertEqual(differences(expected, expected), [])

    def test_one_number(self):
        """Any number of any search; the fault tells where it is."""
        right, rng = RIGHT[FLAT], random.Random(3)
        for _ in range(100):
            at, tests, step = rng.randrange(240), rng.randrange(16), rng.choice([-1, 1])
            wrong = moved(right[at], tests, *rng.choice([(step, 0), (0, step)]))
            [fault] = differences(changed(right, at, wrong), right)
            self.assertIn(f"{'lower' if at % 2 == 0 else 'upper'} rate of term {at // 2 + 1}, {tests} tests:", fault)

    def test_refusals(self):
        self.assertEqual(differences(Refusal(1), Refusal(1)), [])
        self.assertEqual(differences(Refusal(2), Refusal(1)), ["engine R 2, reference R 1"])
        self.assertEqual(differences(RIGHT[FLAT], Refusal(1)), ["engine accepted, reference R 1"])
        self.assertEqual(differences(Refusal(12), RIGHT[FLAT]), ["engine R 12, reference accepted"])


class Promise(unittest.TestCase):
    def check(self, search, *faults):
        """Exactly these faults."""
        found = list(broken(search))
        self.assertEqual(len(found), len(faults), found)
        for text, fault in zip(found, faults):
            self.assertIn(fault, text)

    def test_most_left(self):
        numbers = [22_001, 11_001, 5_501, 2_751, 1_376, 688, 344, 172, 86, 43, 22, 11, 6, 3, 2, 1]
        self.assertEqual([reference.most_left(tests) for tests in range(16)], numbers)

    def test_kept(self):
        for searches in (RIGHT[FLAT], RIGHT[ZERO], [RISING, FALLING]):
            for search in searches:
                self.check(search)

    def test_start(self):
        self.check(moved(FALLING, 0, last=-1), "starts with 0 to 21999")
        self.check(moved(RISING, 0, first=1), "starts with 1 to 22000")
        self.check(moved(FALLING, 0, last=1), "starts with 0 to 22001", "0 tests: 22002 steps are left, not 1 to 22001")

    def test_not_within(self):
        """An interval as large as before, one step further on either side."""
        self.check(moved(FALLING, 3, 1, 1), "4 tests: 0 to 1375 is not within 1 to 2751")
        self.check(moved(RISING, 1, 1, 1), "1 tests: 11001 to 22001 is not within 0 to 22000")
        self.check(moved(FALLING, 15, 2, 2), "15 tests: 2 to 2 is not within 0 to 1")
        self.check(moved(RISING, 15, -2, -2), "15 tests: 21998 to 21998 is not within 21999 to 22000")

    def test_too_many(self):
        self.check(moved(RISING, 1, first=-1), "1 tests: 11002 steps are left, not 1 to 11001")
        self.check(moved(FALLING, 14, last=1), "14 tests: 3 steps are left, not 1 to 2")
        for tests in range(1, 15):
            more = reference.most_left(tests) + 1
            self.check(moved(RISING, tests, first=-1), f"{tests} tests: {more} steps are left")

    def test_not_narrowing(self):
        for tests in range(1, 16):
            counts = [f"{later} tests: " for later in range(tests, 16)]
            self.check(delayed(RISING, tests), *counts, "21999 to 22000 is not one step")

    def test_quarters(self):
        """Each test leaves up to three quarters."""
        with mock.patch.object(reference, "middle", quarter):
            search = Search(LOWER, 7, reference.halvings(lambda step: True, LOWER))
        found = list(broken(search))
        self.assertIn("1 tests: 16501 steps are left", found[0])
        self.assertIn("is not one step", found[-1])

    def test_one_in_the_end(self):
        self.check(moved(FALLING, 15, last=1), "15 tests: 2 steps are left, not 1 to 1", "0 to 1 is not one step")
        self.check(moved(FALLING, 15, first=1), "15 tests: 0 steps are left, not 1 to 1", "1 to 0 is not one step")

    def test_none_left(self):
        """The end comes before the start, and so on until the end."""
        left = RISING.left[:9] + [StepsLeft(21_990, 21_989)] * 7
        self.check(RISING._replace(left=left), *(f"{tests} tests: 0 steps are left" for tests in range(9, 16)),
                   "21990 to 21989 is not one step")


class Scans(unittest.TestCase):
    RATES = {t: compare_search.scanned((FLAT, t)) for t in (1, 2)}

    def faults(self, searches, rates, t=2, answer=programs.expected(FLAT)):
        return pair_faults((FLAT, t), rates, searches, answer)

    def test_right(self):
        self.assertEqual(self.RATES, {1: (-138, -136), 2: (-138, -136)})
        for t, rates in self.RATES.items():
            self.assertEqual(self.faults(RIGHT[FLAT], rates, t), [])

    def test_scan(self):
        """The rates of several terms, in the order in which they were asked for."""
        pairs = [(FLAT, 1), (ZERO, 3), (FLAT, 2)]
        self.assertEqual(compare_search.scan(pairs), [(-138, -136), (0, 0), (-138, -136)])

    def test_rate_ruled_out(self):
        """The rate is lost after a test, and there again in the end."""
        for end in ENDS:
            search = RIGHT[FLAT][2 + end]
            step = search.left[-1].first
            self.assertEqual(list(scan_faults(search, step - 2_000, step - 2_000)), [])
            for tests in range(16):
                for left in (StepsLeft(step + 1, 22_000), StepsLeft(0, step - 1)):
                    wrong = search._replace(left=search.left[:tests] + [left] + search.left[tests + 1:])
                    self.assertIn(f"{tests} tests: {left.first} to {left.last} lack step {step}",
                                  next(scan_faults(wrong, step - 2_000, step - 2_000)))

    def test_more_than_the_rate_in_the_end(self):
        for end in ENDS:
            for first, last in ((-1, 0), (0, 1)):
                wrong = moved(RIGHT[FLAT][2 + end], 15, first, last)
                [fault] = self.faults(changed(RIGHT[FLAT], 2 + end, wrong), self.RATES[2])
                self.assertIn("in the end", fault)

    def test_other_rates(self):
        for rates in ((-139, -136), (-137, -136), (-138, -135), (-138, -137)):
            self.assertTrue(self.faults(RIGHT[FLAT], rates))

    def test_rates_of_the_engine(self):
        """The program `answers` gives another lower or upper rate."""
        right = programs.expected(FLAT)
        factors, rates = right.buffers.splitlines(keepends=True)
        for place, end in ((3, "lower"), (4, "upper")):
            words = rates.split()
            words[place] = b"%d" % (int(words[place]) + 1)
            wrong = right._replace(buffers=factors + b" ".join(words) + b"\n")
            [fault] = self.faults(RIGHT[FLAT], self.RATES[2], answer=wrong)
            self.assertIn(f"{end} rate of term 2: the engine gives", fault)

    def test_refused(self):
        self.assertEqual(self.faults(Refusal(5), self.RATES[2]), ["refused with 5"])

    def test_chosen(self):
        """40 accepted files and terms, with short and long terms, and with low, negative, high and bent curves."""
        pairs = compare_search.scan_pairs()
        self.assertEqual((len(pairs), len(set(pairs))), (40, 40))
        self.assertTrue({1, 2, 20, 21, 60, 61, 120} <= {t for _, t in pairs})
        self.assertFalse([data for data, _ in pairs if isinstance(reference.read(data), Refusal)])
        lowest = [reference.zero_rate(reference.rounded_factors(reference.read(data), last=t)[t], t)[LOWER]
                  for data, t in pairs]
        self.assertLess(min(lowest), -999)
        self.assertGreater(max(lowest), 9_900)
        self.assertGreater(len(set(lowest)), 25)


class Main(unittest.TestCase):
    """The whole comparison on few files, with what a program writes in place of the program."""

    PAIRS = [(FLAT, 2), (ZERO, 1)]

    def compared(self, searches, batch=(FLAT, b"")):
        printed = io.StringIO()
        with (mock.patch.object(compare_search, "kinds", lambda rng, quick: [("few", list(batch))]),
              mock.patch.object(compare_search, "scan_pairs", lambda: self.PAIRS),
              mock.patch.object(programs, "searches", lambda batch: [searches(data) for data in batch]),
              mock.patch.object(programs, "answers", lambda batch: [programs.expected(data) for data in batch]),
              contextlib.redirect_stdout(printed), self.assertRaises(SystemExit) as ended):
            compare_search.main(True)
        return ended.exception.code, printed.getvalue()

    def test_right(self):
        code, printed = self.compared(RIGHT.get)
        self.assertEqual(code, 0, printed)
        last = reference.Rounded(reference.read(FLAT)).zero_rates[120][UPPER] + 2_000
        self.assertEqual(printed.splitlines(), [
            "few: 2 files, 0 different", "the promise: 2 files, 0 different", "scans: 2 files, 0 different",
            f"240 searches, from 1862 to {last} in the end; 1 files refused", "0 different"])

    def test_each_part(self):
        """A number that is another; a search that starts wrongly; one that ends with another step."""
        def with_search(wrong):
            return lambda data: RIGHT[data] if data == b"" else changed(RIGHT[data], 3, wrong(RIGHT[data][3]))
        for wrong, parts in ((lambda search: search._replace(left=search.left[:14] + search.left[15:] * 2), "few"),
                             (lambda search: moved(search, 0, first=1), "few the-promise"),
                             (lambda search: moved(search, 15, 1, 1), "few the-promise scans")):
            code, printed = self.compared(with_search(wrong))
            self.assertEqual(code, 1)
            for part in ("few", "the promise", "scans"):
                self.assertEqual(f"DIFFERENT, {part}: " in printed, part.replace(" ", "-") in parts.split(), printed)

    def test_refusals(self):
        self.assertEqual(self.compared(lambda data: RIGHT[data] if data else Refusal(2))[0], 1)
        self.assertEqual(self.compared(RIGHT.get, batch=[FLAT])[0], 1)  # none was seen


class Kinds(unittest.TestCase):
    def test_both_are_there(self):
        """Accepted and refused files, and among the damaged ones several refusals."""
        kinds = dict(compare_search.kinds(random.Random(compare_search.SEED), True))
        for kind, batch in kinds.items():
            refused = {answer.number for answer in map(reference.read, batch) if isinstance(answer, Refusal)}
            self.assertEqual(len(refused) > 3, kind == "damaged", kind)
            self.assertEqual(not refused, kind != "damaged", kind)


if __name__ == "__main__":
    unittest.main()
