"""./value: it runs only what passed its check, its exit statuses, and its answers for several files.

The check itself is a stand-in here: a script named rt that hands out a program and fails, waits or edits when a test says so.
The last class runs ./value on the repository itself, with the real rt.
"""

import csv
import hashlib
import io
import json
import os
import shutil
import signal
import subprocess
import sys
import time
import unittest
from dataclasses import replace

from tests import ROOT
from tests.inputs import examples
from tests.reference import reference
from tests.reference.reference import MONEY
from tests.unit.checkouts import C1, C1_LISTING, PROGRAM, SOURCES, Checkout, unwarned

sys.path[:0] = [str(ROOT / "tools")]
import casetext
from casetext import months

VERSION = (ROOT / "VERSION").read_text().strip()


# What a program tells of a file: the least that ./value takes for an answer.
VALUED = {"refusal": None, "verdict": "VRIJ VERMOGEN", "figures": {name: [1, 1] for name in MONEY}}


def refused(number):
    return {"refusal": number, "verdict": None, "figures": None}


def in_four_bytes(data):
    """The file with each rate in four bytes, 100 times as large: by METHOD, Rates in four bytes, its listing is the same."""
    case = casetext.read(data)
    return casetext.write(replace(case, rate_bytes=4, days=[[100 * rate for rate in day] for day in case.days]))


class Proved(Checkout):
    def test_proved_once(self):
        for _ in range(2):
            self.assertAnswers(self.value(self.c1), 1)
        for path in self.root.rglob("*"):
            os.utime(path, (2_000_000_000, 2_000_000_000))  # dates say nothing
        self.assertAnswers(self.value(self.c1), 1)

    def test_a_failed_check(self):
        self.order("fails")
        for _ in range(2):
            self.assertNoAnswer(self.value(self.c1), "rt: a NOT PROVED")
            self.assertNoAnswer(self.value("--json", self.c1), "the program is not proved")
        self.order("fails", False)
        self.assertAnswers(self.value(self.c1), 5)

    def test_a_run_that_is_no_verdict(self):
        self.order("lacks")
        self.assertNoAnswer(self.value(self.c1), "the program is not proved")
        self.order("lacks", False)
        self.assertAnswers(self.value(self.c1), 2)

    def test_what_rt_judges(self):
        """A copy of the programs' crates and of those below them, without what other runs left and without must-fail edits; it does not stay."""
        temporary = self.folder / "temporary"
        temporary.mkdir()
        for word in ("fails", "lacks", "slow"):  # the last ends well
            self.order(word)
            run = self.value(self.c1, env=self.environment() | {"TMPDIR": str(temporary)})
            self.order(word, False)
            self.assertEqual(run.returncode, 0 if word == "slow" else 2, run.stderr)
            self.assertEqual((self.rt / "copied").read_text().split(), sorted(f"./{name}" for name in ("crates.txt", *SOURCES)))
            self.assertEqual(list(temporary.iterdir()), [])

    def test_a_failed_check_after_a_good_one(self):
        self.assertAnswers(self.value(self.c1), 1)
        self.write("crates/a/proofs/P.antt", "wrong")
        self.order("fails")
        for _ in range(2):
            self.assertNoAnswer(self.value(self.c1), "the program is not proved")
        self.write("crates/a/proofs/P.antt", "crates/a/proofs/P.antt")  # as it was: but the check of it was thrown away
        self.assertNoAnswer(self.value(self.c1), "the program is not proved")

    def test_edits_of_every_kind(self):
        self.assertAnswers(self.value(self.c1), 1)
        for count, name in enumerate(SOURCES, 2):
            path = self.root / name
            path.write_text(path.read_text()[::-1])  # as long as before
            os.utime(path, (946_684_800, 946_684_800))  # and older than the program
            self.assertAnswers(self.value(self.c1), count)
        path.unlink()
        self.assertAnswers(self.value(self.c1), count + 1)
        self.list_crates("another comment")
        self.assertAnswers(self.value(self.c1), count + 2)

    def test_edits_of_what_no_program_reads(self):
        self.assertAnswers(self.value(self.c1), 1)
        for name in ("crates/other/src/lib.rt", "crates/a/must-fail/wrong.edit", "crates/a/out/kept", "crates/ginghamowl/out/ginghamowl"):
            self.write(name, "edited")
            self.assertAnswers(self.value(self.c1), 1)

    def test_an_edited_program(self):
        self.assertAnswers(self.value(self.c1), 1)
        (self.root / "target/value/ginghamowl").write_text("#!/bin/sh\necho 'R 1'; exit 1\n")
        self.assertAnswers(self.value(self.c1), 2)

    def test_an_edit_during_the_check(self):
        self.order("edit")
        run = self.value(self.c1)
        self.assertAnswers(run, 2)
        self.assertIn(b"the sources changed while they were proved", run.stderr)
        self.list_crates("other")
        self.order("edits")
        self.assertNoAnswer(self.value(self.c1), "the sources changed while they were proved")

    def test_sources_behind_links(self):
        other = self.folder / "elsewhere.rt"
        other.write_text("one")
        (self.root / "crates/a/src/lib.rt").unlink()
        (self.root / "crates/a/src/lib.rt").symlink_to(other)
        self.assertAnswers(self.value(self.c1), 1)
        other.write_text("two")
        self.assertAnswers(self.value(self.c1), 2)

    def test_an_input_that_is_read_once(self):
        """A pipe is not drained by a program whose answer is then thrown away."""
        self.value(self.c1)
        for count, words in enumerate((("/dev/stdin",), ("-",), ("--csv", "-")), 2):
            self.list_crates(f"edit {count}")
            run = self.value(*words, input=C1)
            self.assertEqual((run.returncode, self.calls()), (0, count), run.stderr)
            self.assertIn(b"110000000", run.stdout)

    def test_interrupted(self):
        """An interrupt ends the check, and the next call proves anew."""
        self.order("slow")
        run = subprocess.Popen([self.root / "value", self.c1], stdout=subprocess.PIPE, stderr=subprocess.PIPE,
                               env=self.environment(), start_new_session=True,
                               preexec_fn=lambda: signal.signal(signal.SIGINT, signal.SIG_DFL))  # a shell's & ignores it
        while not self.calls():
            time.sleep(0.01)
        os.killpg(run.pid, signal.SIGINT)
        out, _ = run.communicate()
        self.assertNotIn(run.returncode, (0, 1))
        self.assertEqual(out, b"")
        self.assertFalse((self.root / "target/value/proved").exists())
        self.assertAnswers(self.value(self.c1), 2)

    def test_progress(self):
        """While one waits, each crate is named once it is proved, and one that another run proves; a crate that is only looked up is not."""
        self.order("slow")
        run = self.value(self.c1)
        self.assertAnswers(run, 1)
        self.assertEqual(unwarned(run)[1:], ["value: waiting for another run of rt on this machine, which proves ginghamowl",
                                             "value: proved ginghamowl, 2 of 2 crates"])

    def test_first_calls_at_once(self):
        self.order("slow")
        runs = [subprocess.Popen([self.root / "value", self.c1], stdout=subprocess.PIPE, stderr=subprocess.PIPE,
                                 env=self.environment()) for _ in range(4)]
        for run in runs:
            out, said = run.communicate()
            self.assertEqual((run.returncode, out), (0, C1_LISTING), said)
        self.assertEqual(self.calls(), 1)


class Places(Checkout):
    def test_links_and_folders(self):
        self.assertAnswers(self.value(self.c1), 1)
        far, near = self.folder / "far", self.folder / "near"
        far.symlink_to(self.root / "value")
        near.symlink_to("far")
        self.assertAnswers(self.value("c1.case", program=near, cwd=self.folder), 1)
        self.assertAnswers(self.value("../c1.case", program="./value", cwd=self.root), 1)
        self.assertAnswers(self.value("value", "../c1.case", program="sh", cwd=self.root), 1)
        self.assertIn(VERSION.encode(), self.value("--version", program=near).stdout)

    def test_other_folders_of_the_same_name(self):
        """CDPATH names a folder with a checkout of the same name, which is not proved."""
        other = self.folder / "others"
        shutil.copytree(self.root, other / "checkout")
        self.stand_in(b"R 9\n", {}, 1)
        self.value(self.c1, program=other / "checkout" / "value")
        self.program(PROGRAM)
        for word in (str(other), f"{other}:.", ".:/"):
            run = self.value("c1.case", program="checkout/value", cwd=self.folder, env=self.environment() | {"CDPATH": word})
            self.assertAnswers(run, 2)

    def test_without_its_parts(self):
        for name in ("tools/proved.sh", "tools/report"):
            (self.root / name).rename(self.root / "gone")
            words = ["--json", self.c1] if name == "tools/report" else [self.c1]
            for shell in ([], ["sh"], ["bash"], ["bash", "--posix"]):
                run = subprocess.run([*shell, self.root / "value", *words], capture_output=True, env=self.environment())
                self.assertEqual((run.returncode, run.stdout), (2, b""), (name, shell))
            (self.root / "gone").rename(self.root / name)

    def as_reader(self, *words, **options):
        """A call by someone who may read the checkout and write nothing there."""
        for path in [self.root, *self.root.rglob("*")]:
            path.chmod(0o555)
        if os.geteuid() == 0:
            options["user"], options["group"], options["extra_groups"] = 65_534, 65_534, []
        try:
            return self.value(*words, **options)
        finally:
            for path in [self.root, *self.root.rglob("*")]:
                path.chmod(0o755)

    def test_read_only(self):
        self.stand_in(b"R 3\n", refused(3), 1)
        run = self.as_reader(self.c1)
        self.assertNoAnswer(run, "cannot be written")
        self.assertEqual(self.calls(), 0)
        self.value(self.c1)
        for words in ((self.c1,), ("--csv", self.c1)):
            run = self.as_reader(*words)
            self.assertEqual((run.returncode, unwarned(run)), (1, []))
            self.assertIn(b"3", run.stdout)

    def test_no_rt(self):
        tools = self.folder / "tools"
        tools.mkdir()
        for name in ("sh", "cksum", "cmp", "xargs", "python3"):
            (tools / name).symlink_to(shutil.which(name))
        run = self.value(self.c1, env={"PATH": str(tools)})
        self.assertNoAnswer(run, "rt, which proves it, is not installed")
        self.assertAnswers(self.value(self.c1), 1)
        self.assertAnswers(self.value(self.c1, env={"PATH": str(tools)}), 1)


class Statuses(Checkout):
    def test_one_file(self):
        for data in (b"", C1[:-1], C1 + b"\0", b"\x00\x74" + C1[2:]):
            (self.folder / "bad.case").write_bytes(data)
            run = self.value(self.folder / "bad.case")
            self.assertEqual((run.returncode, run.stdout), (1, reference.listing(data)))
            self.assertEqual(self.value("-", input=data).stdout, reference.listing(data))
        self.assertEqual(self.value("-", input=C1).returncode, 0)

    def test_four_bytes(self):
        four, both = in_four_bytes(C1), b"\x00\xf6" + C1[2:]
        self.assertEqual((self.value("-", input=four).returncode, self.value("-", input=four).stdout), (0, C1_LISTING))
        for data, number in ((four[:-1], 1), (four + b"\0", 2), (both, 3), (four[:-241] + b"\0" + four[-240:], 4),
                             (four[:-4] + b"\x00\x0f\x42\x41", 5), (four[:-4] + b"\x00\x00\x4e\x21", 6)):
            run = self.value("-", input=data)
            self.assertEqual((run.returncode, run.stdout), (1, b"R %d\n" % number))

    def test_no_answer(self):
        self.value(self.c1)
        for words in ((self.folder / "none.case",), (self.folder,), ("",), (), ("--wrong",), ("--json",),
                      ("--json", self.folder), ("--csv", self.folder / "none.case"), ("--json", "-x")):
            run = self.value(*words)
            self.assertEqual(run.returncode, 2, words)
            self.assertTrue(run.stderr, words)
        folder = os.open(self.folder, os.O_RDONLY)  # each read of it fails
        self.addCleanup(os.close, folder)
        self.assertNoAnswer(self.value("-", stdin=folder), "is a directory")
        self.assertNoAnswer(self.value("--json", "-", stdin=folder), "")
        self.assertNoAnswer(self.value("--json", "-", "-", input=C1), "only once")
        self.assertNoAnswer(self.value("--toml", "/dev/zero"), "has more than")

    def test_standard_input_closed(self):
        """Only a call that reads it minds."""
        self.value(self.c1)
        for shell in ("sh", "bash"):
            for words, status in (([self.c1], 0), (["--json", self.c1], 0), (["--version"], 0), (["-"], 2), (["--csv", "-"], 2)):
                run = subprocess.run(["sh", "-c", f'{shell} "$0" "$@" <&-', self.root / "value", *words], capture_output=True,
                                     env=self.environment())
                self.assertEqual((run.returncode, b"standard input is closed" in run.stderr), (status, status == 2), (shell, words))

    def test_an_input_that_does_not_wait(self):
        """What came before the input had no more bytes is not the file."""
        self.value(self.c1)
        for data in (b"", C1[:100]):
            for words in (["-"], ["--csv", "-"]):
                end, start = os.pipe()
                os.set_blocking(end, False)
                os.write(start, data)
                run = self.value(*words, stdin=end)
                os.close(end)
                os.close(start)
                self.assertEqual(run.returncode, 2, words)
                self.assertNotIn(b"R 1", run.stdout)

    def test_a_program_that_breaks_off(self):
        for script in ("echo 'L 1 1'", "printf 'R'", "exit 3", "echo 'R 3'; exit 3", "echo 'R 3'", "kill -9 $$", "printf 'L 1 1\nV VRIJ'",
                       "echo 'X'", "echo 'R 3'; echo 'R 3'; exit 1", "echo '[]'", """echo '{"valuations": []}'""", """echo '{"valuations": [{'; exit 1"""):
            self.program(f"#!/bin/sh\ncat > /dev/null\n{script}\n")
            self.list_crates(repr(script))
            self.assertEqual(self.value("--json", self.c1).returncode, 2, script)
            self.assertNoAnswer(self.value(self.c1), "the program gave no whole listing")
        for told, status in ((refused(3), 0), (VALUED, 1), ({"refusal": None}, 0), ([], 0), (None, 0)):
            self.stand_in(b"", told, status)
            self.list_crates(repr(told))
            self.assertEqual(self.value("--json", self.c1).returncode, 2, told)
        for end in (C1_LISTING.index(b"\nA") + 1, len(C1_LISTING) - 1):
            self.stand_in(C1_LISTING[:end], VALUED, 0)
            self.list_crates(repr(end))
            self.assertNoAnswer(self.value(self.c1), "the program gave no whole listing")

    def test_a_file_that_is_valued_and_not_read(self):
        """Where the program accepts what the reader of cases does not, the answer says that nobody looked."""
        self.stand_in(C1_LISTING, VALUED, 0)
        (self.folder / "bad.case").write_bytes(C1 + b"\0")
        run = self.value("--strict", self.folder / "bad.case")
        self.assertEqual((run.returncode, run.stdout), (3, C1_LISTING))
        self.assertIn(b"bad.case: warning: it was valued, but could not be looked at for slips\n", run.stderr)
        row = json.loads(self.value("--json", self.folder / "bad.case").stdout)["valuations"][0]
        self.assertEqual((row["ufr"], row["days"], len(row["warnings"])), (None, None, 1))

    def test_lost_output(self):
        self.value(self.c1)
        for words in ([self.c1], ["--json", self.c1], ["--csv", self.c1, self.c1], ["--help"], ["--version"]):
            with open("/dev/full", "wb") as full:
                self.assertEqual(self.value(*words, capture_output=False, stdout=full, stderr=subprocess.DEVNULL).returncode, 2)
            closed = subprocess.run(["sh", "-c", '"$0" "$@" >&-', self.root / "value", *words], env=self.environment(),
                                    stderr=subprocess.DEVNULL)
            self.assertEqual(closed.returncode, 2, words)
            read, write = os.pipe()
            os.close(read)
            with open(write, "wb") as pipe:
                self.assertEqual(self.value(*words, capture_output=False, stdout=pipe, stderr=subprocess.DEVNULL).returncode, 2)


class Several(Checkout):
    def setUp(self):
        super().setUp()
        self.files = {"c1.case": C1, "up.case": reference.encode(examples.up(), True, True, True), "bad, \"6\".case":
                      reference.encode(examples.c1(days=[[0] + [6_001] * 59]), False, False, True)}
        for name, data in self.files.items():
            (self.folder / name).write_bytes(data)

        self.value(self.c1)

    def run_all(self, *words):
        return self.value(*words, *self.files, cwd=self.folder)

    def test_blocks(self):
        run = self.run_all()
        self.assertEqual((run.returncode, unwarned(run)), (1, []))
        blocks = [name.encode() + b"\n" + reference.listing(data) for name, data in self.files.items()]
        self.assertEqual(run.stdout, b"\n".join(blocks))
        self.assertEqual(self.value("c1.case", "up.case", cwd=self.folder).returncode, 0)
        run = self.value("c1.case", "none", "bad, \"6\".case", cwd=self.folder)
        self.assertEqual(run.returncode, 2)
        self.assertIn(b"\nnone\nno answer\n\nbad, ", run.stdout)

    def figures(self, name):
        rounded = reference.Rounded(reference.read(self.files[name]))
        return {figure: getattr(rounded, figure) for figure in MONEY}, rounded.verdict

    def test_json(self):
        run = self.run_all("--json")
        self.assertEqual(run.returncode, 1)
        told = json.loads(run.stdout)
        self.assertEqual((told["version"], told["unit"]), (VERSION, "cents"))
        for row, (name, data) in zip(told["valuations"], self.files.items(), strict=True):
            self.assertEqual((row["file"], row["sha256"], row["problem"]), (name, hashlib.sha256(data).hexdigest(), None))
            if name.startswith("bad"):
                self.assertEqual((row["refusal"], row["verdict"], row["figures"]), (6, None, None))
                self.assertIn("forward rate", row["refusal_sentence"])
                continue
            figures, verdict = self.figures(name)
            self.assertEqual({key: tuple(ends) for key, ends in row["figures"].items()}, figures)
            self.assertEqual((row["refusal"], row["verdict"]), (None, verdict))

    def test_csv(self):
        run = self.run_all("--csv")
        self.assertEqual(run.returncode, 1)
        rows = list(csv.DictReader(io.StringIO(run.stdout.decode())))
        for row, (name, data) in zip(rows, self.files.items(), strict=True):
            self.assertEqual((row["file"], row["sha256"], row["version"]), (name, hashlib.sha256(data).hexdigest(), VERSION))
            if name.startswith("bad"):
                self.assertEqual((row["refusal"], row["verdict"], row["L_lower"]), ("6", "", ""))
                continue
            figures, verdict = self.figures(name)
            self.assertEqual({key: (int(row[key + "_lower"]), int(row[key + "_upper"])) for key in figures}, figures)
            self.assertEqual((row["refusal"], row["verdict"]), ("", verdict))

    def test_csv_of_a_dutch_spreadsheet(self):
        """The same rows with semicolons between the cells; a cell that has one in it, as a refusal's sentence, stands in quotes."""
        plain = self.run_all("--csv").stdout
        for same in ("--csv=,", "--cs"):
            self.assertEqual(self.run_all(same).stdout, plain)
        dutch = self.run_all("--csv=;").stdout.decode()
        header = dutch.splitlines()[0]
        self.assertEqual((header.count(","), header.split(";")), (0, plain.decode().splitlines()[0].split(",")))
        rows = list(csv.DictReader(io.StringIO(dutch), delimiter=";"))
        self.assertEqual(rows, list(csv.DictReader(io.StringIO(plain.decode()))))
        self.assertTrue(any(";" in row["refusal_sentence"] for row in rows))
        for words, mark in ((("--csv=;", "--csv"), ","), (("--csv", "--csv=;"), ";"), (("--csv=,", "--csv=;"), ";")):
            self.assertEqual(self.run_all(*words).stdout.decode()[4], mark, words)

    def test_csv_of_other_marks(self):
        """Only these two, and a file may have such a name."""
        for mark in ("", "x", ";;", "\t", "|", "; "):
            run = self.value(f"--csv={mark}", self.c1)
            self.assertEqual((run.returncode, run.stdout), (2, b""), mark)
            self.assertIn(f"--csv={mark}: what stands between the cells is , or ;".encode(), run.stderr)
        self.assertIn(b"'--csv=;'", self.value("--csv=").stderr)  # what is left of --csv=; where a shell has ended the call at the mark
        shutil.copy(self.c1, self.folder / "--csv=;")
        self.assertEqual(self.value("--", "--csv=;", cwd=self.folder).stdout, C1_LISTING)
        self.assertTrue(self.value("--csv=;", "--", "--csv=;", cwd=self.folder).stdout.splitlines()[1].startswith(b'"--csv=;";'))
        self.assertIn(b"not allowed with", self.value("--json", "--csv=;", self.c1).stderr)

    def test_what_is_handed_in(self):
        """The first bytes of a file, which decide; the longest that can be accepted, with every field, is whole among them."""
        self.stand_in(b"R 1\n", refused(1), 1)
        self.list_crates("another program")
        case = casetext.read(in_four_bytes((ROOT / "cases/largest.case").read_bytes()))
        largest = casetext.write(replace(case, equity_correlation=999))
        self.assertEqual(len(largest), 17_625)
        for data in (largest, bytes(17_626), bytes(17_627), bytes(40_000)):
            (self.folder / "long.case").write_bytes(data)
            self.value("--csv", self.folder / "long.case")
            self.assertEqual((self.rt / "input").read_bytes(), data[:17_626])


class Texts(Checkout):
    def setUp(self):
        super().setUp()
        for name in ("fund.toml", "fund-days.csv", "fund.case"):
            shutil.copy(ROOT / "cases" / name, self.folder)
        self.text, self.listing = self.folder / "fund.toml", (ROOT / "cases/fund.txt").read_bytes()
        self.value(self.c1)

    def edit(self, old, new):
        text = self.text.read_text()
        self.assertEqual(text.count(old), 1)
        self.text.write_text(text.replace(old, new))

    def test_listing(self):
        run = self.value(self.text)
        self.assertEqual((run.returncode, run.stdout, run.stderr), (0, self.listing, b""))
        other = self.text.rename(self.folder / "fund.text")
        self.assertEqual(self.value(other).stdout, b"R 3\n")  # text under any other name is bytes like all others
        self.assertEqual(self.value("--toml", other).stdout, self.listing)
        run = self.value("--toml", "-", input=other.read_bytes(), cwd=self.folder)
        self.assertEqual((run.returncode, run.stdout), (0, self.listing))

    def test_four_bytes(self):
        """The key in the text; the case that is valued is the file of four bytes, and its listing is the same."""
        self.edit('unit = "%"', 'rate_bytes = 4\nunit = "%"')
        run = self.value("--json", self.text)
        row = json.loads(run.stdout)["valuations"][0]
        four = in_four_bytes((self.folder / "fund.case").read_bytes())
        self.assertEqual(row["case_sha256"], hashlib.sha256(four).hexdigest())
        self.assertEqual(row["warnings"], ["the share of rates in days with a seventh decimal (0.00001 %) is 0 % of all on day 1, "
                                           "below 50 % of all; did a spreadsheet cut off the decimals?"])
        self.assertEqual((run.returncode, self.value(self.text).stdout), (0, self.listing))

    def test_decimals_that_two_bytes_do_not_hold(self):
        sheet = self.folder / "fund-days.csv"
        sheet.write_text(sheet.read_text().replace(";0,429;", ";0,42907;", 1))
        self.assertNoAnswer(self.value(self.text), "days.csv, line 2, cell 3 of fund-days.csv, is 0,42907, which is no whole number of "
                            "steps; the nearest are 0.429 % and 0.43 %; for rates to 0.00001 % write rate_bytes = 4 in [days]")

    def test_the_slip_that_turned_a_verdict(self):
        """25 for 25 %: without its unit it is an error, and in thousandths it is warned of."""
        self.edit('mature_fall = "25 %"', "mature_fall = 25")
        self.assertNoAnswer(self.value(self.text), "shocks.mature_fall is 25 without a unit")
        self.edit("mature_fall = 25", 'mature_fall = "25 thousandths"')
        run = self.value(self.text)
        self.assertEqual(run.returncode, 0)
        self.assertNotEqual(run.stdout, self.listing)
        self.assertIn(b"fund.toml: warning: shocks.mature_fall is 2.5 %, below 5 %", run.stderr)

    def test_standard_error_closed(self):
        """Warnings go nowhere then, and never to standard output."""
        self.edit('mature_fall = "25 %"', 'mature_fall = "25 thousandths"')
        for words in ([self.text], ["--json", self.text]):
            run = subprocess.run(["sh", "-c", '"$0" "$@" 2>&-', self.root / "value", *words], env=self.environment(),
                                 stdout=subprocess.PIPE)
            self.assertEqual(run.returncode, 0)
            self.assertTrue(run.stdout.startswith((b"L ", b"{\n")), run.stdout)

    def test_no_case(self):
        self.edit('unit = "%"', 'unit = "promille"')
        self.edit("heads = 4180", "head = 4180")
        run = self.value(self.text, self.c1)
        self.assertEqual(run.returncode, 2)
        said = run.stderr.decode()
        self.assertTrue("days.unit" in said and "people.head is no key of a case; did you mean people.heads?" in said, said)
        self.text.write_bytes(b"\x80\x00")
        self.assertNoAnswer(self.value(self.text), "no TOML")

    def test_json(self):
        row = json.loads(self.value("--json", self.text).stdout)["valuations"][0]
        self.assertEqual(row["sha256"], hashlib.sha256(self.text.read_bytes()).hexdigest())
        self.assertEqual(row["case_sha256"], hashlib.sha256((self.folder / "fund.case").read_bytes()).hexdigest())
        self.assertEqual((row["verdict"], row["warnings"]), ("RESERVETEKORT", []))


class Months(Checkout):
    """The listing is that of the file with the UFR found in its field."""

    def setUp(self):
        super().setUp()
        for name in ("fund.case", "fund.toml", "fund-days.csv"):
            shutil.copy(ROOT / "cases" / name, self.folder)
        self.rates = [5_400 - 25 * month for month in range(120)]  # the mean is 3,912.5
        self.history, self.sheet = self.folder / "a.months", self.folder / "a.csv"
        self.history.write_bytes(months.write(self.rates, 37))
        self.sheet.write_text(months.to_csv(self.rates))
        self.fund = reference.read((self.folder / "fund.case").read_bytes())
        (self.folder / "no_ufr.case").write_bytes(reference.encode(self.fund, False, True, True))
        self.value(self.c1)

    def listing(self, case=examples.c1(), ufr=3_900):
        return reference.listing(reference.encode(replace(case, ufr=ufr), True, bool(case.bonds), True))

    def with_months(self, *words, history="a.months", start=37, **options):
        started = [] if start is None else ["--start", str(start)]
        return self.value("--months", history, *started, *words, cwd=self.folder, **options)

    def assertRefused(self, run, number):
        self.assertEqual((run.returncode, run.stdout, unwarned(run)), (1, b"R %d\n" % number, []))

    def test_listing(self):
        for history, start in (("a.months", 37), ("a.csv", 37), ("a.csv", None)):
            for name, case in (("c1.case", examples.c1()), ("fund.case", self.fund), ("fund.toml", self.fund),
                               ("no_ufr.case", self.fund)):
                run = self.with_months(name, history=history, start=start)
                self.assertEqual((run.returncode, run.stdout, unwarned(run)), (0, self.listing(case), []))
        self.assertNotEqual(self.listing(self.fund), self.value(self.folder / "fund.case").stdout)
        self.assertEqual(self.calls(), 1)

    def test_four_bytes(self):
        """The UFR found takes the place of that in the file, whatever the days field."""
        for name, data in (("four.case", (self.folder / "fund.case").read_bytes()),
                           ("four_no_ufr.case", (self.folder / "no_ufr.case").read_bytes())):
            (self.folder / name).write_bytes(in_four_bytes(data))
            run = self.with_months(name)
            self.assertEqual((run.returncode, run.stdout, unwarned(run)), (0, self.listing(self.fund), []))

    def test_standard_input(self):
        self.assertEqual(self.with_months("-", input=C1).stdout, self.listing())
        self.assertEqual(self.with_months("c1.case", history="-", input=self.history.read_bytes()).stdout, self.listing())
        self.assertNoAnswer(self.with_months("-", history="-", input=C1), "standard input can be read only once")

    def test_what_is_handed_in(self):
        """The first bytes of both files, which decide, and the start index."""
        self.stand_in(b"R 1\n", refused(1), 1)
        self.list_crates("another program")
        handed = lambda: [(self.rt / name).read_bytes() for name in ("input", "history", "start")]
        files = {"short.case": b"ab", "long.case": bytes(17_700)}, {"short.months": b"", "long.months": bytes(300)}
        for name, data in (files[0] | files[1]).items():
            (self.folder / name).write_bytes(data)
        for form in ([], ["--json"]):
            for case, case_bytes in files[0].items():
                for history, history_bytes in files[1].items():
                    self.with_months(*form, case, history=history, start=258)
                    self.assertEqual(handed(), [case_bytes[:17_626], history_bytes[:241], b"258\n"])
        self.with_months("short.case", history="a.csv", start=119)
        self.assertEqual(handed(), [b"ab", months.write(self.rates, 119), b"119\n"])
        for start in (-1, 2 ** 64, 10 ** 40):
            self.with_months("short.case", start=start)
            self.assertEqual(handed()[2], b"18446744073709551615\n")

    def test_standard_input_closed(self):
        """The history is handed in by a number that is none of the program's own three."""
        for words in ([], ["--json"]):
            run = subprocess.run(["sh", "-c", '"$0" "$@" <&-', self.root / "value", *words, "--months", self.history, "--start", "37",
                                  self.folder / "fund.case"], capture_output=True, env=self.environment())
            self.assertEqual((run.returncode, unwarned(run)), (0, []), words)
        self.assertIn(b'"ufr": 3900', run.stdout)

    def test_refusals(self):
        for start in (120, -1, 2 ** 64 - 1, 2 ** 64, 2 ** 64 + 37, -2 ** 64 + 37, 10 ** 40):
            for history in ("a.months", "a.csv"):
                self.assertRefused(self.with_months("c1.case", history=history, start=start), 17)
        data = self.history.read_bytes()
        for other, number in ((data[1:], 17), (data + b"\0", 17), (b"", 17), (b"\xfc\x17" + data[2:], 18),
                              (b"\xff\xcd" * 120, 19), (b"\x13\xba" * 120, 19)):
            self.history.write_bytes(other)
            self.assertRefused(self.with_months("c1.case"), number)
        (self.folder / "bad.case").write_bytes(C1[:-1])
        self.assertRefused(self.with_months("bad.case"), 1)

    def test_rounding(self):
        for mean, ufr in ((-50, 0), (49, 0), (50, 100), (5_049, 5_000)):
            self.history.write_bytes(mean.to_bytes(2, "big", signed=True) * 120)
            self.assertEqual(self.with_months("c1.case").stdout, self.listing(ufr=ufr))

    def test_several(self):
        (self.folder / "bad.case").write_bytes(C1 + b"\0")
        run = self.with_months("c1.case", "bad.case", "fund.case")
        blocks = [b"c1.case\n" + self.listing(), b"bad.case\nR 2\n", b"fund.case\n" + self.listing(self.fund)]
        self.assertEqual((run.returncode, run.stdout, unwarned(run)), (1, b"\n".join(blocks), []))

    def test_json(self):
        (self.folder / "bad.case").write_bytes(C1 + b"\0")
        run = self.with_months("--json", "fund.case", "bad.case", history="a.csv", start=5)
        told = json.loads(run.stdout)
        self.assertEqual(run.returncode, 1)
        self.assertEqual({key: told[key] for key in told if key not in ("version", "unit", "valuations")},
                         {"months": "a.csv", "months_sha256": hashlib.sha256(self.sheet.read_bytes()).hexdigest(), "start": 5,
                          "months_warnings": [], "months_problem": None})
        good, bad = told["valuations"]
        rounded = reference.Rounded(replace(self.fund, ufr=3_900))
        self.assertEqual((good["ufr"], good["refusal"], good["verdict"]), (3_900, None, rounded.verdict))
        self.assertEqual({key: tuple(ends) for key, ends in good["figures"].items()}, {key: getattr(rounded, key) for key in MONEY})
        self.assertEqual((bad["ufr"], bad["refusal"], bad["figures"]), (None, 2, None))
        for start, told_start in ((37, 37), (-1, -1)):
            told = json.loads(self.with_months("--json", "c1.case", start=start).stdout)
            self.assertEqual((told["months"], told["start"]), ("a.months", told_start))
            self.assertEqual(told["months_sha256"], hashlib.sha256(self.history.read_bytes()).hexdigest())
        self.assertEqual((told["valuations"][0]["refusal"], told["valuations"][0]["ufr"]), (17, None))
        self.assertIn("history", told["valuations"][0]["refusal_sentence"])

    def test_csv(self):
        run = self.with_months("--csv", "c1.case", "fund.case", start=119)
        rows = list(csv.DictReader(io.StringIO(run.stdout.decode())))
        self.assertEqual((run.returncode, len(rows)), (0, 2))
        for row in rows:
            self.assertEqual((row["months"], row["start"], row["ufr"], row["version"]), ("a.months", "119", "3900", VERSION))
            self.assertEqual(row["months_sha256"], hashlib.sha256(self.history.read_bytes()).hexdigest())
        self.assertEqual([row["verdict"] for row in rows], [self.listing().splitlines()[-1][2:].decode(),
                                                            self.listing(self.fund).splitlines()[-1][2:].decode()])
        run = self.with_months("--csv=;", "c1.case", "fund.case", start=119)
        self.assertEqual(list(csv.DictReader(io.StringIO(run.stdout.decode()), delimiter=";")), rows)

    def test_without_months(self):
        """Nothing is said of months where none are asked for."""
        for form in ("--json", "--csv"):
            out = self.value(form, self.folder / "fund.case").stdout
            self.assertFalse(any(word in out for word in (b"months", b"start")), out)

    def test_wrong_calls(self):
        for words, said in (("--months a.months c1.case", "--start is missing"), ("--start 1 c1.case", "they go with --months only"),
                            ("--months a.months --start x c1.case", "argument --start: invalid int value"),
                            ("--months a.months --start 1.0 c1.case", "argument --start: invalid int value"),
                            ("--months a.csv", "required: FILE"),
                            ("--months-unit % c1.case", "they go with --months only"),
                            ("--months a.months --start 1 --months-unit % c1.case", "its bytes are in steps"), ("c1.case --months", "argument --months: expected one argument")):
            self.assertNoAnswer(self.value(*words.split(), cwd=self.folder), said)

    def test_no_history(self):
        """It is said once, by the history's name, and no case has an answer."""
        self.sheet.write_text(self.sheet.read_text().replace("3;5.35 %", "3;5.35").replace("9;5.2 %", "9;52 %"))
        for history, said in (("none", ["none: cannot be read: "]), (".", [".: cannot be read: "]),
                              ("a.csv", ["a.csv: line 4, cell 2, is 5.35 without a unit", "a.csv: line 10, cell 2, is 52 %"])):
            run = self.with_months("c1.case", "fund.case", history=history)
            self.assertEqual((run.returncode, run.stdout), (2, b"c1.case\nno answer\n\nfund.case\nno answer\n"))
            lines = run.stderr.decode().splitlines()
            self.assertEqual(lines[len(said):], [f"c1.case: the history {history} cannot be used",
                                                 f"fund.case: the history {history} cannot be used"])
            for line, start in zip(lines, said):
                self.assertTrue(line.startswith(start), line)
            told = json.loads(self.with_months("--json", "c1.case", history=history).stdout)
            self.assertIn(said[0].partition(": ")[2], told["months_problem"])
            self.assertEqual((told["valuations"][0]["ufr"], told["valuations"][0]["figures"]), (None, None))
        self.assertNoAnswer(self.with_months("c1.case", history="none"), "cannot be read")

    def test_warnings(self):
        self.sheet.write_text("4.2 %\n" * 120)
        run = self.with_months("c1.case", "c1.case", history="a.csv")
        self.assertEqual((run.returncode, run.stderr.decode().count("a.csv: warning: the number of different months is 1, below 20;")), (0, 1))
        told = json.loads(self.with_months("--json", "c1.case", history="a.csv").stdout)
        self.assertEqual(len(told["months_warnings"]), 1)

    def test_a_program_that_breaks_off(self):
        whole = self.listing()
        for printed in (b"", b"UFR 3900\n", b"UFR 3900\n" + whole, whole[:-1], whole + whole, b"\n" + whole, whole + b"\n"):
            self.stand_in(printed, VALUED, 0)
            self.list_crates(repr(printed))
            self.assertNoAnswer(self.with_months("c1.case"), "the program gave no whole listing")
        self.stand_in(whole, VALUED, 0)
        self.list_crates("whole")
        self.assertEqual(self.with_months("c1.case").stdout, whole)


class Repository(unittest.TestCase):
    """./value of the repository itself."""

    def test_examples(self):
        """Every example is valued or refused as the text beside it says, alone and all at once."""
        files = sorted((ROOT / "cases").glob("*.case"))
        blocks = [file.name + "\n" + file.with_suffix(".txt").read_text() for file in files]
        run = subprocess.run([ROOT / "value", *(file.name for file in files)], cwd=ROOT / "cases", capture_output=True, text=True)
        self.assertEqual((run.returncode, run.stdout), (1, "\n".join(blocks)))
        for file in files:
            run = subprocess.run([ROOT / "value", file], capture_output=True, text=True)
            expected = file.with_suffix(".txt").read_text()
            self.assertEqual((run.returncode, run.stdout), (int(expected.startswith("R")), expected), file.name)

    def test_example_with_months(self):
        for words in (["fund.months", "--start", "37"], ["fund-months.csv"], ["fund-months.csv", "--start", "99"]):
            run = subprocess.run([ROOT / "value", "--months", *words, "fund.case"], cwd=ROOT / "cases", capture_output=True)
            self.assertEqual((run.returncode, run.stdout, run.stderr), (0, (ROOT / "cases/fund-months.txt").read_bytes(), b""))

    def test_a_call_costs_little(self):
        """A call on a built tree proves nothing, and stays near the time of one that values nothing. docs/DECISIONS.md has the ratio."""
        def quickest(*words):
            times = []
            for _ in range(15):
                began = time.perf_counter()
                subprocess.run([ROOT / "value", *words], stdout=subprocess.DEVNULL, stderr=subprocess.DEVNULL, check=True)
                times.append(time.perf_counter() - began)
            return min(times)
        subprocess.run([ROOT / "value", ROOT / "cases/largest.case"], capture_output=True, check=True)
        self.assertLess(quickest(ROOT / "cases/largest.case"), 4 * quickest("--version"))


if __name__ == "__main__":
    unittest.main()
