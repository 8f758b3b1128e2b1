"""The program itself, without ./value: its listings, byte for byte, its JSON and CSV, its statuses, and what it cannot read."""

import csv
import io
import json
import os
import shutil
import subprocess
import sys
import tempfile
import unittest
from dataclasses import replace
from pathlib import Path

from tests import ROOT
from tests.compare import programs
from tests.inputs import examples
from tests.reference import months, reference
from tests.reference.reference import MONEY

sys.path[:0] = [str(ROOT / "tools")]
import casetext
from casereport import writing

C1 = reference.encode(examples.c1(), False, False, True)
C1_LISTING = reference.listing(C1)
CASES = ROOT / "cases"
VERSION = (ROOT / "VERSION").read_text().strip()
LEFT_OUT = {"sha256", "case_sha256", "sheets", "warnings", "first_day", "last_day", "months_sha256", "months_warnings", "equity_correlation",
            "S2_without_relief", "S2_without_relief_lower", "S2_without_relief_upper"}


class Native(unittest.TestCase):
    def setUp(self):
        place = tempfile.TemporaryDirectory()
        self.addCleanup(place.cleanup)
        self.folder = Path(place.name)
        self.c1 = self.folder / "c1.case"
        self.c1.write_bytes(C1)
        for name in ("fund.case", "fund.months"):
            shutil.copy(CASES / name, self.folder)

    def run_on(self, *words, **options):
        options = {"capture_output": True, "cwd": self.folder} | options
        return subprocess.run([programs.program("ginghamowl"), *words], **options)

    def told(self, *words, **options):
        return json.loads(self.run_on("--json", *words, **options).stdout)

    def rows(self, *words, delimiter=",", **options):
        return list(csv.DictReader(io.StringIO(self.run_on(*words, **options).stdout.decode(), newline=""), delimiter=delimiter))

    def assertNoAnswer(self, run, words):
        self.assertEqual((run.returncode, run.stdout), (2, b""), run.stderr)
        self.assertIn(words, run.stderr.decode())


class Listings(Native):
    def test_every_example(self):
        """Alone, from standard input and all at once."""
        files = sorted(CASES.glob("*.case"))
        self.assertGreater(len(files), 15)
        for file in files:
            listing = file.with_suffix(".txt").read_bytes()
            expected = int(listing.startswith(b"R")), listing, b""
            for words, data in (((file,), b""), ((), file.read_bytes()), (("-",), file.read_bytes())):
                run = self.run_on(*words, input=data)
                self.assertEqual((run.returncode, run.stdout, run.stderr), expected, (file.name, words))
        blocks = [file.name.encode() + b"\n" + file.with_suffix(".txt").read_bytes() for file in files]
        run = self.run_on(*(file.name for file in files), cwd=CASES)
        self.assertEqual((run.returncode, run.stdout, run.stderr), (1, b"\n".join(blocks), b""))

    def test_several(self):
        (self.folder / "bad.case").write_bytes(C1 + b"\0")
        run = self.run_on("c1.case", "-", "bad.case", "none", input=(CASES / "fund.case").read_bytes())
        self.assertEqual(run.returncode, 2)
        self.assertEqual(run.stdout, b"c1.case\n" + C1_LISTING + b"\n-\n" + (CASES / "fund.txt").read_bytes()
                         + b"\nbad.case\nR 2\n\nnone\nno answer\n")
        self.assertTrue(run.stderr.startswith(b"none: cannot be read: "), run.stderr)
        self.assertEqual(len(run.stderr.splitlines()), 1)

    def test_the_longest(self):
        """What follows the bytes that decide is not looked at, and is not missed."""
        for data in (bytes(17_626), bytes(40_000), C1 + bytes(40_000)):
            self.assertEqual(self.run_on(input=data).stdout, reference.listing(data))


class Months(Native):
    def setUp(self):
        super().setUp()
        self.history = (CASES / "fund.months").read_bytes()

    def test_listing(self):
        expected = (CASES / "fund-months.txt").read_bytes()
        for words, data in ((("fund.case",), b""), ((), (CASES / "fund.case").read_bytes()), (("-",), (CASES / "fund.case").read_bytes())):
            run = self.run_on("--months", "fund.months", "--start", "37", *words, input=data)
            self.assertEqual((run.returncode, run.stdout, run.stderr), (0, expected, b""))
        run = self.run_on("--months", "-", "--start", "37", "fund.case", input=self.history)
        self.assertEqual((run.returncode, run.stdout), (0, expected))

    def test_refusals(self):
        for history, start, number in ((self.history, 120, 17), (self.history, 2 ** 64 - 1, 17), (self.history[1:], 0, 17),
                                       (self.history + b"\0", 0, 17), (self.history * 9, 0, 17), (b"", 0, 17),
                                       (b"\xfc\x17" + self.history[2:], 0, 18), (b"\xff\xcd" * 120, 0, 19)):
            for words, data in ((("fund.case",), b""), ((), C1)):
                (self.folder / "a.months").write_bytes(history)
                run = self.run_on("--months", "a.months", "--start", str(start), *words, input=data)
                self.assertEqual((run.returncode, run.stdout), (1, b"R %d\n" % number))
        row, = self.told("--months", "a.months", "--start", "0", "fund.case")["valuations"]
        self.assertEqual((row["refusal"], row["ufr"], row["days"]), (19, None, None))

    def test_several(self):
        case = reference.read((CASES / "fund.case").read_bytes())
        listing = reference.listing(reference.encode(replace(case, ufr=months.ufr_of(self.history, 37).ufr), True, bool(case.bonds), True))
        self.assertEqual(listing, (CASES / "fund-months.txt").read_bytes())
        run = self.run_on("--months", "fund.months", "--start", "37", "fund.case", "c1.case")
        self.assertEqual(run.stdout, b"fund.case\n" + listing + b"\nc1.case\n" + months.listing(C1, self.history, 37))

    def test_no_history(self):
        """It is said once, and no file has an answer."""
        for name in ("none", "."):
            run = self.run_on("--months", name, "--start", "1", "fund.case", "c1.case")
            self.assertEqual((run.returncode, run.stdout), (2, b"fund.case\nno answer\n\nc1.case\nno answer\n"))
            first, *others = run.stderr.decode().splitlines()
            self.assertTrue(first.startswith(f"{name}: cannot be read: "), first)
            self.assertEqual(others, [f"{file}: the history {name} cannot be used" for file in ("fund.case", "c1.case")])
            told = self.told("--months", name, "--start", "1", "c1.case")
            self.assertIn("cannot be read: ", told["months_problem"])
            self.assertEqual(told["valuations"][0]["problem"], f"the history {name} cannot be used")
            self.assertNoAnswer(self.run_on("--months", name, "--start", "1", input=C1), "cannot be used")


class Forms(Native):
    """JSON and CSV, against Python's readers of both and against ./value's own forms."""

    def names(self):
        shutil.copy(self.c1, self.folder / 'a, "b";\n\x07é€.case')
        (self.folder / "bad.case").write_bytes(C1 + b"\0")
        return ["fund.case", 'a, "b";\n\x07é€.case', "bad.case", "none"]

    def expected(self, name):
        """What the reference says of a file, under the names of the rows."""
        rounded = None
        if name != "none":
            case = reference.read((self.folder / name).read_bytes())
            rounded = case if isinstance(case, reference.Refusal) else reference.Rounded(case)
        if rounded is None or isinstance(rounded, reference.Refusal):
            return {"refusal": rounded and rounded.number, "verdict": None, "figures": None}
        return {"refusal": None, "verdict": rounded.verdict, "figures": {key: list(getattr(rounded, key)) for key in MONEY}}

    def test_json(self):
        names = self.names()
        run = self.run_on("--json", *names)
        told = json.loads(run.stdout)
        self.assertEqual((run.returncode, list(told)), (2, ["version", "unit", "valuations"]))
        self.assertEqual((told["version"], told["unit"]), (VERSION, "cents"))
        self.assertEqual(json.dumps(told, indent=2, ensure_ascii=False) + "\n", run.stdout.decode())  # as ./value lays it out
        for row, name in zip(told["valuations"], names, strict=True):
            expected = self.expected(name)
            self.assertEqual({key: row[key] for key in expected}, expected)
            self.assertEqual((row["file"], bool(row["problem"])), (name, name == "none"))
            self.assertEqual(row["refusal_sentence"], writing.sentence(row["refusal"]))
        self.assertEqual(list(told["valuations"][0]["figures"]), list(MONEY))

    def test_numbers(self):
        """Those by which an office knows its case again, of every example."""
        for file in sorted(CASES.glob("*.case")):
            row, = self.told(file)["valuations"]
            if row["refusal"] is not None:
                self.assertEqual([row[name] for name in writing.VALUED if name in row], [None] * 9, file.name)
                continue
            case = casetext.read(file.read_bytes())
            bonds, amounts = case.bonds or [], dict(case.amounts or {})
            amounts.pop("currency", None)
            ufr = (4_200, "default") if case.ufr is None else (case.ufr, "file")
            self.assertEqual([row[name] for name in writing.VALUED if name in row],
                             [*ufr, case.rate_bytes, len(case.days), len(case.pension), sum(case.pension), len(bonds), sum(bonds),
                              sum(amounts.values())], file.name)
        row, = self.told("--months", "fund.months", "--start", "37", "fund.case")["valuations"]
        found = months.ufr_of((CASES / "fund.months").read_bytes(), 37).ufr
        self.assertEqual((row["ufr"], row["ufr_from"], row["days"]), (found, "history", 20))

    def test_csv(self):
        names = self.names()
        told = self.told(*names)["valuations"]
        for words, mark in ((["--csv"], ","), (["--csv=,"], ","), (["--csv=;"], ";")):
            run = self.run_on(*words, *names)
            self.assertEqual(run.returncode, 2)
            self.assertNotIn(b"\r", run.stdout)
            for row, expected in zip(self.rows(*words, *names, delimiter=mark), told, strict=True):
                figures = expected["figures"] or {}
                self.assertEqual([row[f"{name}_{end}"] for name in MONEY for end in ("lower", "upper")],
                                 [str(number) for name in MONEY for number in figures.get(name, ("", ""))])
                self.assertEqual(row["version"], VERSION)
                for name in set(expected) - {"figures"}:
                    self.assertEqual(row[name], "" if expected[name] is None else str(expected[name]), name)

    def test_the_forms_of_value(self):
        """The keys and columns are those of ./value that the program has values for, in the same order."""
        history = writing.History("a", 1)
        for words, given in (([], None), (["--months", "fund.months", "--start", "1"], history)):
            report = writing.Report([writing.Answer("c1.case")], given)
            keys = json.loads(writing.as_json(report))
            told = self.told(*words, "c1.case")
            self.assertEqual(list(told), [key for key in keys if key not in LEFT_OUT])
            self.assertEqual(list(told["valuations"][0]), [key for key in keys["valuations"][0] if key not in LEFT_OUT])
            columns = next(csv.reader(io.StringIO(writing.as_csv(report))))
            head = self.run_on("--csv", *words, "c1.case").stdout.decode().splitlines()[0].split(",")
            self.assertEqual(head, [column for column in columns if column not in LEFT_OUT])

    def test_months(self):
        told = self.told("--months", "fund.months", "--start", "37", "fund.case")
        self.assertEqual((told["months"], told["start"], told["months_problem"]), ("fund.months", 37, None))
        row, = self.rows("--csv", "--months", "fund.months", "--start", "37", "fund.case")
        self.assertEqual((row["months"], row["start"], row["ufr"]), ("fund.months", "37", str(told["valuations"][0]["ufr"])))

    def test_standard_input(self):
        for words in ([], ["-"]):
            row, = self.told(*words, input=C1)["valuations"]
            self.assertEqual((row["file"], row["verdict"]), ("-", "VRIJ VERMOGEN"))
            row, = self.rows("--csv", *words, input=C1)
            self.assertEqual((row["file"], row["verdict"]), ("-", "VRIJ VERMOGEN"))


class Faults(Native):
    def test_what_cannot_be_read(self):
        for words in (["none"], ["."], [""]):
            for form in ([], ["--json"], ["--csv"]):
                run = self.run_on(*form, *words)
                self.assertEqual(run.returncode, 2, words)
                self.assertTrue(run.stderr.decode().startswith(f"{words[0]}: cannot be read: "), run.stderr)
            self.assertEqual(self.run_on(*words).stdout, b"")
        folder = os.open(self.folder, os.O_RDONLY)  # each read of it fails
        self.addCleanup(os.close, folder)
        for words in ([], ["-"], ["--months", "fund.months", "--start", "1"]):
            self.assertNoAnswer(self.run_on(*words, stdin=folder), "-: cannot be read: ")
        for words in ([], ["-"], ["c1.case", "-"]):
            run = subprocess.run(["sh", "-c", '"$0" "$@" <&-', programs.program("ginghamowl"), *words], capture_output=True, cwd=self.folder)
            self.assertEqual((run.returncode, b"-: cannot be read" in run.stderr), (2, True), run.stderr)

    def test_an_input_that_does_not_wait(self):
        """What came before the input had no more bytes is not the file."""
        for data in (b"", C1[:100]):
            for form in ([], ["--json"], ["c1.case", "-"]):
                end, start = os.pipe()
                os.set_blocking(end, False)
                os.write(start, data)
                run = self.run_on(*form, stdin=end)
                os.close(end)
                os.close(start)
                self.assertEqual(run.returncode, 2, form)
                self.assertNotIn(b"R 1", run.stdout)

    def test_lost_output(self):
        for words in ([], ["c1.case"], ["c1.case", "c1.case"], ["--json", "c1.case"], ["--csv", "c1.case"], ["--help"], ["--version"]):
            with open("/dev/full", "wb") as full:
                run = self.run_on(*words, capture_output=False, input=C1, stdout=full, stderr=subprocess.PIPE)
            self.assertEqual((run.returncode, bool(run.stderr)), (2, True), words)
            closed = subprocess.run(["sh", "-c", '"$0" "$@" >&-', programs.program("ginghamowl"), *words], input=C1, cwd=self.folder,
                                    stderr=subprocess.DEVNULL)
            self.assertEqual(closed.returncode, 2, words)
            read, write = os.pipe()
            os.close(read)
            with open(write, "wb") as pipe:
                run = self.run_on(*words, capture_output=False, input=C1, stdout=pipe, stderr=subprocess.DEVNULL)
            self.assertEqual(run.returncode, 2, words)

    def test_lost_words(self):
        """Where standard error is closed, what would be said there goes nowhere."""
        for words in (["none", "c1.case"], ["--months", "none", "--start", "1", "c1.case", "c1.case"]):
            run = subprocess.run(["sh", "-c", '"$0" "$@" 2>&-', programs.program("ginghamowl"), *words], stdout=subprocess.PIPE, cwd=self.folder)
            self.assertEqual((run.returncode, run.stdout), (2, self.run_on(*words).stdout), words)

    def test_wrong_calls(self):
        for words, said in ((["--wrong"], "--wrong"), (["--json", "--csv", "c1.case"], "cannot be used with"),
                            (["--csv=x", "c1.case"], "invalid value 'x'"), (["--csv=", "c1.case"], "--csv"),
                            (["--months", "fund.months", "c1.case"], "--start"), (["--start", "1", "c1.case"], "--months"),
                            (["--months", "fund.months", "--start", "x"], "invalid value 'x'"),
                            (["--months", "fund.months", "--start", "18446744073709551616"], "invalid value"),
                            (["-", "-"], "only once"), (["--json", "-", "c1.case", "-"], "only once"),
                            (["--months", "-", "--start", "1"], "only once"), (["--months", "-", "--start", "1", "-"], "only once"),
                            (["c1.case", "--months"], "--months")):
            self.assertNoAnswer(self.run_on(*words, input=C1), said)

    def test_names_that_are_no_utf_8(self):
        """The program has no such words: it says so, and values nothing. ./value takes every name."""
        shutil.copy(self.c1, os.fsencode(self.folder) + b"/\xff.case")
        self.assertNoAnswer(self.run_on("c1.case", b"\xff.case"), "a word of the call is no UTF-8")

    def test_names_like_options(self):
        shutil.copy(self.c1, self.folder / "--json")
        self.assertEqual(self.run_on("--", "--json").stdout, C1_LISTING)

    def test_help_and_version(self):
        run = self.run_on("--version")
        self.assertEqual((run.returncode, run.stdout, run.stderr), (0, f"ginghamowl {VERSION}\n".encode(), b""))
        run = self.run_on("--help")
        self.assertEqual((run.returncode, run.stderr), (0, b""))
        for word in ("FILE", "--json", "--csv", "--months", "--start", "--version", "Exit status"):
            self.assertIn(word, run.stdout.decode())


if __name__ == "__main__":
    unittest.main()
