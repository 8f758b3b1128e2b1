"""What a refused file looks like: python3 -m unittest discover -s hosts/python/tests."""

import gzip
import io
import os
import random
import subprocess
import sys
import tempfile
import unittest
import zipfile
from pathlib import Path

ROOT = Path(__file__).resolve().parents[3]
sys.path[:0] = [str(ROOT / "hosts/python"), str(ROOT)]
import ginghamowl
from common import damaged_files
from ginghamowl._hints import hint

CASES = ROOT / "cases"
STORED = sorted(CASES.glob("*.case"))
TEXTS = sorted(CASES.glob("*.toml"))
SHEETS = sorted(CASES.glob("*.csv"))
BYTE_ORDER_MARKS = {"utf-16-le": b"\xff\xfe", "utf-16-be": b"\xfe\xff"}


def zipped(*names):
    """A zip archive with files of these names."""
    out = io.BytesIO()
    with zipfile.ZipFile(out, "w", zipfile.ZIP_DEFLATED) as archive:
        for name in names:
            archive.writestr(name, b"<xml/>")
    return out.getvalue()


def in_encodings(text):
    """The text in each encoding that is told."""
    yield text.encode()
    yield text.encode("utf-8-sig")
    yield text.encode("cp1252")
    for encoding, mark in BYTE_ORDER_MARKS.items():
        yield mark + text.encode(encoding)


class Hints(unittest.TestCase):
    def looks_like(self, what, *advised, data):
        said = hint(data)
        self.assertIsNotNone(said, data[:60])
        self.assertTrue(said.startswith(f"this looks like {what}, not like a case file: "), said)
        for words in advised:
            self.assertIn(words, said)
        self.assertTrue(said.isascii() and said.isprintable())


class WhatIsTold(Hints):
    def test_text_cases(self):
        advised = "./value NAME.toml values it", "./value --toml NAME", "tools/casefile encode"
        texts = [path.read_text() for path in TEXTS]
        self.assertGreater(len(texts), 10)
        for text in texts:
            for data in in_encodings(text):
                self.looks_like("a text case in TOML", *advised, data=data)
            self.looks_like("a text case in TOML", *advised, data=text.replace("\n", "\r\n").encode())
        template = subprocess.run([ROOT / "tools/casefile", "--template"], capture_output=True, check=True).stdout
        for data in (template, b'ufr = "4.2 %"', b'ufr="4.2 %"\n', b"# a fund\n\n  [days]  # of May\ncsv = 'x.csv'", b"[ people ]\n",
                     "# de zevende, mei \u20ac\nufr = '4,2 %'".encode("cp1252"), b"Assets\n1;2\n[flows]\n1;2\n"):
            self.looks_like("a text case in TOML", *advised, data=data)

    def test_sheets(self):
        texts = [path.read_text() for path in SHEETS]
        self.assertGreater(len(texts), 2)
        texts += ["1;100\n2;200\n", "term\tflow\n1\t1.000.000\n", "1,2,3", '"term","flow"\r\n"1","100"\r\n', "2002-09;5,412 %\n",
                  ";;1\n", "jaar;\u20ac\n1;\u20ac 1\xa0000,00\n", "een titel\n\n1;2\n", "a;-0,5\n", "term,flow\n1,100\n\n\n"]
        for text in texts:
            for data in in_encodings(text):
                self.looks_like("a CSV file", "a text case names", "tools/casefile --template", data=data)

    def test_other_texts(self):
        for text in ("Geachte heer, in 2012, op 3 mei, was het 2,5 %.\nMet vriendelijke groet,\n", "0.8.1\n", "a", "a, b\nc, d\n",
                     "<html>\n<p>1, 2</p>\n", '{"ufr": 4200, "days": [1, 2]}\n', "[package]\nname = 'x'\n", "1\n2\na;b\n",
                     "if x == 1:\n    ufr = 2\n"):
            for data in in_encodings(text):
                self.looks_like("a text", "tools/casefile --template", "./value", data=data)
        for name in ("README.md", "value", "include/ginghamowl.h", "cases/fund.txt", "cases/fund.curve"):
            self.looks_like("a text", data=(ROOT / name).read_bytes())

    def test_other_kinds(self):
        workbook = zipped("[Content_Types].xml", "xl/workbook.xml")
        self.looks_like("a workbook (.xlsx) or another zip archive", "CSV", "tools/casefile --template", data=workbook)
        old = bytes.fromhex("d0cf11e0a1b11ae1") + bytes(504)
        self.looks_like("a workbook (.xls) or another file of an old office program", "CSV", "tools/casefile --template", data=old)
        self.looks_like("a PDF", "tools/casefile --template", data=b"%PDF-1.7\n%\xe2\xe3\xcf\xd3\n1 0 obj\n")
        for path in (STORED[0], TEXTS[0]):
            self.looks_like("a file packed by gzip", "gunzip", data=gzip.compress(path.read_bytes()))

    def test_cut_anywhere(self):
        """A file is read as far as decides its refusal, which may be inside a character."""
        for text in ("ufr = '4.2 %'  # \u20ac \u00e9\u00e9n", "jaar;\u20ac\n1;\u20ac 5\n" * 3):
            for data in in_encodings(text):
                for end in range(len(data) // 2, len(data)):
                    self.assertIsNotNone(hint(data[:end]), data[:end])

    def test_long_files(self):
        """The first bytes tell, whatever follows them."""
        self.looks_like("a CSV file", data=b"1;100\n" * 10 ** 6)
        self.looks_like("a text", data=b"\xef\xbb\xbf" + "\u20ac and so on, ".encode() * 10 ** 5)
        self.looks_like("a text", data=b"and so on, " * 2_000 + b"\0")


class WhatIsNotTold(Hints):
    def test_stored_cases(self):
        self.assertGreater(len(STORED), 20)
        for path in STORED:
            self.assertIsNone(hint(path.read_bytes()), path)

    def test_damaged_cases(self):
        for data in damaged_files(18, 3_000):
            self.assertIsNone(hint(data), data)

    def test_other_first_bytes(self):
        """A case file with the beginning of a text, or a part of another beginning, in place of its own or ahead of it."""
        for path in STORED:
            data = path.read_bytes()
            for first in (b"\xff\xfe", b"\xfe\xff", b"\xef\xbb\xbf", b"a", b"[days]\n", b"1;2\n", b"PK", b"PK\3", b"%PDF", b"\x1f\x8b"):
                if len(data) > 20:
                    self.assertIsNone(hint(first + data[len(first):]), (path, first))
                    self.assertIsNone(hint(first + data), (path, first))

    def test_cut_cases(self):
        for path in STORED:
            data = path.read_bytes()
            for end in range(0, min(len(data), 600), 7):
                self.assertIsNone(hint(data[:end]), path)

    def test_nothing_and_anything(self):
        rng = random.Random(19)
        fixed = (b"", b" ", b"\n\r\n\t", b"\0", b"\xff\xfe", b"\xfe\xff", b"\xef\xbb\xbf", b";;;", b"\xff" * 100, b"ab\0cd",
                 b"ab\x1bcd", b"\xe9\xe8\xea\xeb")
        for data in (*fixed, *(rng.randbytes(rng.randint(32, 400)) for _ in range(3_000))):
            self.assertIsNone(hint(data), data)


class Program(unittest.TestCase):
    def run_program(self, data, *options):
        environment = os.environ | {"PYTHONPATH": str(ROOT / "hosts/python")}
        with tempfile.NamedTemporaryFile() as file:
            file.write(data)
            file.flush()
            return subprocess.run([sys.executable, "-m", "ginghamowl", *options, file.name], env=environment, capture_output=True,
                                  text=True)

    def test_beside_the_refusal(self):
        """The hint is a line of standard error; standard output and the exit status are those of any refusal."""
        for data in (TEXTS[0].read_bytes(), SHEETS[0].read_bytes(), zipped("xl/workbook.xml")):
            number = ginghamowl.refusal(data)
            for options, answer in (((), f"refused, 3: {ginghamowl.SENTENCES[3]}\n"), (("--listing",), "R 3\n")):
                run = self.run_program(data, *options)
                self.assertEqual((number, run.returncode, run.stdout, run.stderr), (3, 1, answer, f"{hint(data)}\n"))

    def test_nothing_to_say(self):
        for name, status in (("fund", 0), ("refused_03", 1), ("refused_09", 1)):
            run = self.run_program((CASES / f"{name}.case").read_bytes())
            self.assertEqual((run.returncode, run.stderr), (status, ""))

    def test_without_the_library(self):
        """The module stands alone, since ./value has no shared library."""
        code = f"import sys; sys.path[:0] = [{str(ROOT / 'hosts/python/ginghamowl')!r}]; import _hints; print(_hints.hint(b'ufr = 1'))"
        run = subprocess.run([sys.executable, "-I", "-c", code], capture_output=True, text=True)
        self.assertEqual((run.stdout, run.stderr), (f"{hint(b'ufr = 1')}\n", ""))


if __name__ == "__main__":
    unittest.main()
