"""The words and the version of every host are those of hosts/words.toml and VERSION. Nothing needs to be built."""

import json
import re
import shutil
import subprocess
import sys
import tempfile
import tomllib
import unittest
from pathlib import Path

from tests import ROOT

sys.path.insert(0, str(ROOT / "hosts/python"))
sys.path.insert(0, str(ROOT / "hosts/python/backend"))
import ginghamowl
import ginghamowl_wheel
from ginghamowl import _words

VERSION = (ROOT / "VERSION").read_text().strip()
TABLE = tomllib.loads((ROOT / "hosts/words.toml").read_text())
REFUSALS, VERDICTS, KIT = TABLE["refusal"], TABLE["verdict"], TABLE["kit"]
NO_REFUSAL, NO_VERDICT = "no refusal has this number", "no verdict has this number"


def text(path):
    return (ROOT / path).read_text()


def by_number(entries, field):
    return {entry["number"]: entry[field] for entry in entries}


def constants(source, pattern):
    """Name and number of each constant that the pattern finds."""
    return {name: int(number) for name, number in re.findall(pattern, source, re.MULTILINE)}


class Table(unittest.TestCase):
    def test_numbers_and_names(self):
        self.assertEqual([entry["number"] for entry in REFUSALS], [*range(1, 20), 27])
        self.assertEqual([entry["number"] for entry in VERDICTS], list(range(1, 5)))
        names = [entry["name"] for entry in REFUSALS + VERDICTS]
        self.assertEqual(len(set(names)), len(names))

    def test_header(self):
        found = constants(text("include/ginghamowl.h"), r"^ +GINGHAMOWL_(\w+) = (\d+),?$")
        expected = {"ACCEPTED": 0, "NO_VERDICT": 0}
        expected |= {"REFUSED_" + entry["name"]: entry["number"] for entry in REFUSALS}
        expected |= {entry["name"]: entry["number"] for entry in VERDICTS}
        self.assertEqual({name: found.get(name) for name in expected}, expected)
        self.assertEqual({name for name in found if name.startswith("REFUSED_")}, {n for n in expected if n.startswith("REFUSED_")})

    def test_header_comments(self):
        plain = re.sub(r"\s*\n\s*\* ", " ", text("include/ginghamowl.h"))
        for entry in REFUSALS + VERDICTS:
            self.assertIn(f"/* {entry['sentence']} */", plain)

    @unittest.skipUnless(shutil.which("gcc"), "gcc is not installed")
    def test_c_words(self):
        program = ('#include <stdio.h>\n#include "ginghamowl_words.h"\nint main(void) { for (unsigned n = 0; n < 257; n++) '
                   'printf("%s\\n%s\\n%s\\n", ginghamowl_refusal_sentence(n), ginghamowl_verdict_word(n), '
                   "ginghamowl_verdict_sentence(n)); }\n")
        with tempfile.TemporaryDirectory() as folder:
            subprocess.run(["gcc", "-std=c11", "-pedantic", "-Wall", "-Wextra", "-Werror", f"-I{ROOT}/include", "-x", "c", "-",
                            "-o", f"{folder}/words"], input=program, text=True, check=True)
            lines = subprocess.run([f"{folder}/words"], capture_output=True, text=True, check=True).stdout.splitlines()
        tables = [(by_number(REFUSALS, "sentence"), NO_REFUSAL), (by_number(VERDICTS, "word"), NO_VERDICT),
                  (by_number(VERDICTS, "sentence"), NO_VERDICT)]
        self.assertEqual(lines, [table.get(n, other) for n in range(257) for table, other in tables])

    def test_rust_enums(self):
        camel = lambda name: "".join(word.capitalize() for word in name.split("_"))
        for enum, entries in (("Refusal", REFUSALS), ("Verdict", VERDICTS)):
            body = re.search(rf"pub enum {enum} {{\n(.*?)}}", text("hosts/rust/src/lib.rs"), re.DOTALL)[1]
            self.assertEqual(constants(body, r"^    (\w+) = (\d+),$"),
                             {camel(entry["name"]): entry["number"] for entry in entries})

    def test_rust_words(self):
        for name, entries, field, otherwise in (("refusal_sentence", REFUSALS, "sentence", NO_REFUSAL),
                                                ("verdict_word", VERDICTS, "word", NO_VERDICT),
                                                ("verdict_sentence", VERDICTS, "sentence", NO_VERDICT)):
            body = re.search(rf"pub fn {name}\(.*?\n}}\n", text("hosts/rust/src/words.rs"), re.DOTALL)[0]
            arms = dict(re.findall(r"^ +(\d+|_) => (\".*\"),$", body, re.MULTILINE))
            self.assertEqual(json.loads(arms.pop("_")), otherwise)
            self.assertEqual({int(n): json.loads(words) for n, words in arms.items()}, by_number(entries, field))

    def test_engine(self):
        """The engine's enum prints the same sentences, each under the same number."""
        found = re.findall(r'^    #\[error\((".*")\)\]\n    \w+ = (\d+),$', text("crates/refusal/src/lib.rt"), re.MULTILINE)
        self.assertEqual([(int(number), json.loads(words)) for words, number in found],
                         [(entry["number"], entry["sentence"]) for entry in REFUSALS])

    def test_python(self):
        self.assertEqual(ginghamowl.SENTENCES, by_number(REFUSALS, "sentence"))
        self.assertEqual({verdict.name: verdict.value for verdict in ginghamowl.Verdict},
                         {entry["name"]: entry["number"] for entry in VERDICTS})
        for entry in VERDICTS:
            verdict = ginghamowl.Verdict(entry["number"])
            self.assertEqual((verdict.word, verdict.sentence), (entry["word"], entry["sentence"]))
        self.assertEqual(str(ginghamowl.Refused(20)), f"refused, 20: {NO_REFUSAL}")


class Initialisers(unittest.TestCase):
    """What a C or C++ host fills its structs with first: no struct of zeros, which would ask for the smallest buffer."""

    PROGRAM = ('#include <stdio.h>\n#include <string.h>\n#include "ginghamowl.h"\n'
               "int main(void) { ginghamowl_shocks shocks = GINGHAMOWL_SHOCKS_DEFAULT; "
               "ginghamowl_case_fields fields = GINGHAMOWL_CASE_FIELDS_DEFAULT; uint64_t numbers[39]; size_t i; "
               "memcpy(numbers, &shocks, sizeof shocks); memcpy(numbers + 13, &fields, sizeof fields); "
               'for (i = 0; i < 39; i++) printf("%lu ", (unsigned long)numbers[i]); return 0; }\n')

    def printed(self, *compiler):
        with tempfile.TemporaryDirectory() as folder:
            subprocess.run([*compiler, "-pedantic", "-Wall", "-Wextra", "-Werror", f"-I{ROOT}/include", "-", "-o", f"{folder}/program"],
                           input=self.PROGRAM, text=True, check=True)
            return subprocess.run([f"{folder}/program"], capture_output=True, text=True, check=True).stdout

    def prints_defaults(self, *compiler):
        """The shocks, and then the fields of a case: the bytes of a rate, the UFR, the amounts, the shocks, the people."""
        shocks = [0] * 12 + [1_000]
        self.assertEqual(list(map(int, self.printed(*compiler).split())), [*shocks, 2, 4_200, *[0] * 8, *shocks, *[0] * 3])

    @unittest.skipUnless(shutil.which("gcc"), "gcc is not installed")
    def test_c(self):
        for standard in ("c99", "c11"):
            self.prints_defaults("gcc", f"-std={standard}", "-x", "c")

    @unittest.skipUnless(shutil.which("g++"), "g++ is not installed")
    def test_cpp(self):
        for standard in ("c++11", "c++20"):
            self.prints_defaults("g++", f"-std={standard}", "-x", "c++")


class Version(unittest.TestCase):
    def test_header(self):
        header = text("include/ginghamowl.h")
        self.assertEqual(re.findall(r'^#define GINGHAMOWL_VERSION "(.*)"$', header, re.MULTILINE), [VERSION])
        numbers = constants(header, r"^#define GINGHAMOWL_VERSION_(\w+) (\d+)$")
        self.assertEqual(numbers, dict(zip(("MAJOR", "MINOR", "PATCH"), map(int, VERSION.split(".")))))

    def test_engine(self):
        """The code has the numbers and the kit as constants, the definition has them as numerals and a text."""
        numbers = dict(zip(("MAJOR", "MINOR", "PATCH"), map(int, VERSION.split("."))))
        code, definition = text("crates/host/src/version.rt"), text("crates/flat/specs/Version.antt")
        self.assertEqual(constants(code, r"^pub const (\w+): u32 = (\d+);$"), numbers)
        name, = re.findall(r'^pub const KIT: \[u8; 32\] = \*b"(.*)";$', code, re.MULTILINE)
        self.assertEqual(name.replace(r"\0", "\0"), KIT.ljust(32, "\0"))
        self.assertEqual(constants(definition, r"^  (\w+) = (\d+);$"), {name.lower(): number for name, number in numbers.items()})
        self.assertEqual(re.findall(r'^  kit = padded 32 \(codes "(.*)"\);$', definition, re.MULTILINE), [KIT])

    def test_program(self):
        self.assertEqual(re.findall(r'^pub const VERSION: &str = "(.*)";$', text("crates/command/src/version.rt"), re.MULTILINE), [VERSION])

    def test_kit(self):
        """What the header says, and the pages that name the kit."""
        self.assertEqual(re.findall(r'^#define GINGHAMOWL_KIT "(.*)"$', text("include/ginghamowl.h"), re.MULTILINE), [KIT])
        for page in ("README.md", "docs/GUARANTEES.md"):
            named = re.findall(r"\bkit `(\S+) logic ", text(page))
            self.assertEqual(set(named), {KIT}, page)

    def test_rust_asks_for_the_version(self):
        """Every call of the engine in the Rust crate is one of a function that has been asked for."""
        calls = "".join(text(f"hosts/rust/src/{name}.rs") for name in ("lib", "case", "months", "rolling"))
        functions = re.findall(r"^    pub fn (ginghamowl_\w+)\(", text("hosts/rust/src/raw.rs"), re.MULTILINE)
        self.assertEqual(set(re.findall(r"raw::checked\(raw::(\w+)\)\(", calls)), set(functions))
        self.assertEqual(calls.count("raw::ginghamowl_"), len(functions))

    def test_rust(self):
        self.assertEqual(tomllib.loads(text("hosts/rust/Cargo.toml"))["package"]["version"], VERSION)
        locked = {package["name"]: package["version"] for package in tomllib.loads(text("hosts/rust/Cargo.lock"))["package"]}
        self.assertEqual(locked, {"ginghamowl": VERSION})

    def test_python(self):
        self.assertEqual((ginghamowl.__version__, _words.VERSION, ginghamowl_wheel.version()), (VERSION,) * 3)
        self.assertNotIn("version", tomllib.loads(text("hosts/python/pyproject.toml"))["project"])
        run = subprocess.run([sys.executable, "-m", "ginghamowl", "--version"], cwd=ROOT / "hosts/python",
                             capture_output=True, text=True)
        self.assertEqual((run.returncode, run.stdout, run.stderr), (0, f"ginghamowl {VERSION}\n", ""))

    def test_names_of_the_libraries(self):
        run = subprocess.run(["bash", "-euc", '. hosts/names.sh; echo "$version $archive_name $soname"'], cwd=ROOT,
                             capture_output=True, text=True, check=True)
        major, minor, _ = VERSION.split(".")
        self.assertEqual(run.stdout.split(), [VERSION, "libginghamowl.a", f"libginghamowl.so.{major}.{minor}"])

    def test_changelog(self):
        self.assertEqual(re.findall(r"^## (\S+)", text("CHANGELOG.md"), re.MULTILINE)[0], VERSION)


class Script(unittest.TestCase):
    FILES = ("VERSION", "hosts/words", "hosts/words.toml", "include/ginghamowl.h", "include/ginghamowl_words.h",
             "hosts/rust/Cargo.toml", "hosts/rust/Cargo.lock", "hosts/rust/src/words.rs", "hosts/python/ginghamowl/_words.py",
             "crates/host/src/version.rt", "crates/flat/specs/Version.antt", "crates/command/src/version.rt")
    ENGINE = {"crates/host/src/version.rt", "crates/flat/specs/Version.antt"}

    def setUp(self):
        folder = tempfile.TemporaryDirectory()
        self.addCleanup(folder.cleanup)
        self.root = Path(folder.name)
        for path in self.FILES:
            (self.root / path).parent.mkdir(parents=True, exist_ok=True)
            shutil.copy(ROOT / path, self.root / path)

    def run_words(self, *options):
        run = subprocess.run([sys.executable, self.root / "hosts/words", *options], capture_output=True, text=True)
        return run.returncode, set(re.findall(r"^hosts/words: (\S+) (?:differs|written)", run.stdout, re.MULTILINE))

    def test_unchanged(self):
        run = subprocess.run([sys.executable, ROOT / "hosts/words", "--check"], capture_output=True, text=True)
        self.assertEqual((run.returncode, run.stdout, run.stderr), (0, "", ""))

    def test_another_version(self):
        (self.root / "VERSION").write_text("3.14.15\n")
        differing = {"include/ginghamowl.h", "hosts/rust/Cargo.toml", "hosts/rust/Cargo.lock", "hosts/python/ginghamowl/_words.py",
                     "crates/command/src/version.rt"}
        self.assertEqual(self.run_words("--check"), (1, differing | self.ENGINE))
        self.assertEqual(self.run_words(), (0, differing | self.ENGINE))
        self.assertEqual(self.run_words("--check"), (0, set()))
        for path in differing:
            self.assertIn('"3.14.15"', (self.root / path).read_text())
        for path in self.ENGINE:
            self.assertEqual(re.findall(r"(?:: u32|major|minor|patch) = (\d+);", (self.root / path).read_text()), ["3", "14", "15"])

    def test_another_kit(self):
        table = self.root / "hosts/words.toml"
        table.write_text(table.read_text().replace(f'kit = "{KIT}"', 'kit = "another-kit.2"'))
        differing = {"include/ginghamowl.h"} | self.ENGINE
        self.assertEqual(self.run_words(), (0, differing))
        for path in differing:
            self.assertRegex((self.root / path).read_text(), r'"another-kit\.2(\\0)*"')
        run = subprocess.run([sys.executable, self.root / "hosts/words", "--kit"], capture_output=True, text=True)
        self.assertEqual((run.returncode, run.stdout), (0, "another-kit.2\n"))

    def test_another_sentence(self):
        table = self.root / "hosts/words.toml"
        table.write_text(table.read_text().replace("it must be 1 to 70", r'it is \"1\" to 70'))
        differing = {"include/ginghamowl.h", "include/ginghamowl_words.h", "hosts/rust/src/words.rs",
                     "hosts/python/ginghamowl/_words.py"}
        self.assertEqual(self.run_words("--check"), (1, differing))
        self.assertEqual(self.run_words(), (0, differing))
        self.assertEqual(self.run_words("--check"), (0, set()))

    def test_a_file_changed_by_hand_or_gone(self):
        words = self.root / "hosts/rust/src/words.rs"
        words.write_text(words.read_text().replace("VRIJ VERMOGEN", "VRIJ"))
        (self.root / "include/ginghamowl_words.h").unlink()
        differing = {"hosts/rust/src/words.rs", "include/ginghamowl_words.h"}
        self.assertEqual(self.run_words("--check"), (1, differing))
        self.assertEqual(self.run_words(), (0, differing))
        self.assertEqual(words.read_text(), text("hosts/rust/src/words.rs"))

    def test_what_cannot_be_written(self):
        table = self.root / "hosts/words.toml"
        for wrong in ("café", "two\\nlines"):
            table.write_text(text("hosts/words.toml").replace("it must be 1 to 70", wrong))
            self.assertEqual(self.run_words("--check"), (1, set()))
        for wrong in ("", "a kit", "kit\\u0000", "k" * 32, "k\u00efts"):
            table.write_text(text("hosts/words.toml").replace(f'kit = "{KIT}"', f'kit = "{wrong}"'))
            self.assertEqual(self.run_words("--check"), (1, set()), wrong)
        table.write_text(text("hosts/words.toml").replace(f'kit = "{KIT}"', f'kit = "{"k" * 31}"'))
        self.assertEqual(self.run_words("--check"), (1, {"include/ginghamowl.h"} | self.ENGINE))
        shutil.copy(ROOT / "hosts/words.toml", table)
        (self.root / "VERSION").write_text("1.0\n")
        self.assertEqual(self.run_words("--check"), (1, set()))


if __name__ == "__main__":
    unittest.main()
