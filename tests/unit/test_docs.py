"""The pages name only paths that exist, and link only headings that are there; the numbers of docs/METHOD.md that are easily
checked are those of the reference."""

import fnmatch
import glob
import os
import re
import struct
import unittest
from dataclasses import replace
from fractions import Fraction
from math import floor

from tests import ROOT
from tests.inputs.examples import c1
from tests.reference import reference

PAGES = [os.path.relpath(page, ROOT) for pattern in ("README.md", "CHANGELOG.md", "docs/*.md", "hosts/README.md", "cases/README.md")
         for page in sorted(glob.glob(os.path.join(ROOT, pattern)))]
RECORDS = {"docs/DESIGN-PASS.md"}  # of an earlier tree, by its places; the page says of which

SUFFIXES = "md py rt antt toml case curve txt csv months c h a so edit rs json yml sh".split()
PRODUCTS = ("target/", "out/", "crates/*/out/", "hosts/target/", "bench/target/", "libhost.a/", "libginghamowl.a/")  # made by a build, never committed
PLACEHOLDERS = ("NAME", "FILE", "DIR", "...")
READERS_OWN = {"fund.case", "my_program.c"}  # files that a reader makes while following a page
FIGURES = {"result.a", "f.a"}  # the figure A in a clause, and no archive
CRATE_FOLDERS = ("src/", "specs/", "proofs/", "must-fail/")  # a path within a crate, named without the crate

PATH = re.compile(r"[\w.*{][\w.*{},+-]*(/[\w.*{},+-]+)*/?")
LINK = re.compile(r"\[[^\]]*\]\(([^)\s]+)\)")
CODE = re.compile(r"`([^`\n]+)`")
MODULE = re.compile(r"\bpython3 -m (tests(?:\.\w+)*)")  # one that a page runs


# ---------------------------------------------------------------- the tree

def tree():
    """Every file and folder of the working tree, as paths from its root; no build products."""
    found = set()
    for folder, folders, names in os.walk(ROOT):
        folders[:] = [name for name in folders if name not in (".git", "target", "out", "__pycache__")]
        for name in folders + names:
            found.add(os.path.relpath(os.path.join(folder, name), ROOT))
    return found


TREE = tree()
NAMES = {os.path.basename(path) for path in TREE}
CRATES = {path.split("/")[1] for path in TREE if path.startswith("crates/")}


def alternatives(pattern):
    """{a,b} written out."""
    braces = re.search(r"\{([^{}]*)\}", pattern)
    if not braces:
        return [pattern]
    return [one for word in braces.group(1).split(",")
            for one in alternatives(pattern[:braces.start()] + word + pattern[braces.end():])]


def in_tree(pattern):
    """A path from the root, in which * matches any part of one name."""
    if "*" not in pattern:
        return os.path.normpath(pattern) in TREE
    depth = pattern.count("/")
    return any(path.count("/") == depth and fnmatch.fnmatchcase(path, pattern) for path in TREE)


def resolves(word):
    """The word names something: from the root, within some crate, a must-fail edit, or by its file name alone."""
    word = word.removeprefix("./").rstrip("/")
    crate, _, edit = word.partition("/")
    return (in_tree(word)
            or word.startswith(CRATE_FOLDERS) and in_tree("crates/*/" + word)
            or bool(edit) and crate in CRATES and in_tree(f"crates/{crate}/must-fail/{edit}.edit")
            or "/" not in word and any(fnmatch.fnmatchcase(name, word) for name in NAMES))


# ---------------------------------------------------------------- the pages

def exempt(word):
    return ((word.rstrip("/") + "/").startswith(PRODUCTS) or word in READERS_OWN or word in FIGURES
            or any(placeholder in word for placeholder in PLACEHOLDERS))


def has_suffix(word):
    stem, dot, suffix = word.rpartition(".")
    return bool(stem) and suffix in SUFFIXES


def looks_like_path(word, alone):
    """Alone in `..` a slash or a known suffix makes a path. Among other words a slash takes a suffix, ./ or a known first folder."""
    if not PATH.fullmatch(word.removeprefix("./")) or not re.search("[A-Za-z]", word):
        return False
    if has_suffix(word):
        return True
    return "/" in word and (alone or word.startswith("./") or word.split("/")[0] in TREE)


def blocks_and_prose(text):
    """The lines of code blocks, fenced or indented, and all other text."""
    blocks, prose, fenced, indented = [], [], False, False
    before = ""
    for line in text.splitlines():
        if line.startswith("```"):
            fenced = not fenced
        else:
            indented = line.startswith("    ") and (indented or not before.strip())
            (blocks if fenced or indented else prose).append(line)
        before = line
    return blocks, "\n".join(prose)


def named_paths(text):
    """The words of a page that name a path of the tree."""
    blocks, prose = blocks_and_prose(text)
    spans = CODE.findall(prose)
    words = [span for span in spans if looks_like_path(span, alone=True)]
    for line in blocks + [span for span in spans if " " in span]:
        words += [word for word in line.split() if looks_like_path(word, alone=False)]
    bare = [word.strip(".,;:()") for word in LINK.sub("", CODE.sub("", prose)).split()]
    words += [word for word in bare if "/" in word and has_suffix(word) and looks_like_path(word, alone=False)]
    return [word for word in words if not exempt(word)]


def module_path(module):
    """The file that python3 -m runs: the module, or the __main__ of a folder."""
    path = module.replace(".", "/")
    return f"{path}/__main__.py" if in_tree(path) else f"{path}.py"


def anchors(text):
    """The anchors of a page's headings, as the usual renderers make them."""
    headings = re.findall(r"^#+ (.*)$", re.sub(r"^```.*?^```", "", text, flags=re.M | re.S), re.M)
    return {re.sub(r"[^\w\- ]", "", heading.lower()).strip().replace(" ", "-") for heading in headings}


def read_page(path):
    with open(os.path.join(ROOT, path), encoding="utf-8") as file:
        return file.read()


def wrong_link(page, text, target):
    if re.match(r"[a-z]+:", target):
        return False
    path, _, anchor = target.partition("#")
    goal = os.path.normpath(os.path.join(os.path.dirname(page), path)) if path else page
    if path and goal not in TREE:
        return True
    if path and not goal.endswith(".md") and re.fullmatch(r"L\d+", anchor):
        return not 1 <= int(anchor[1:]) <= read_page(goal).count("\n")
    return bool(anchor) and anchor not in anchors(read_page(goal) if path else text)


def faults(page, text):
    """What a page names that is not there."""
    prose = blocks_and_prose(text)[1]
    links = [f"{page}: link {target}" for target in LINK.findall(CODE.sub(r"\1", prose)) if wrong_link(page, text, target)]
    modules = [f"{page}: {module}" for module in MODULE.findall(text) if not in_tree(module_path(module))]
    return links + modules + [f"{page}: {word}" for word in named_paths(text)
                              if not all(resolves(one) for one in alternatives(word))]


class Pages(unittest.TestCase):
    def test_every_path_exists(self):
        found = [fault for page in PAGES if page not in RECORDS for fault in faults(page, read_page(page))]
        self.assertEqual(found, [], "\n" + "\n".join(found))

    def test_a_record_says_of_which_tree_it_is(self):
        for page in RECORDS:
            self.assertRegex(read_page(page), r"ended at [0-9a-f]{40}\.\n", page)

    def test_paths_are_looked_at(self):
        """The pages do name paths, so that an empty list of faults says something."""
        self.assertGreater(sum(len(named_paths(read_page(page))) for page in PAGES), 100)


class TestOfTheTest(unittest.TestCase):
    """Wrong paths are caught, and right ones are not."""

    def check(self, text, wrong):
        self.assertEqual([fault.split()[-1] for fault in faults("docs/PAGE.md", text)], wrong, text)

    def test_right(self):
        self.check("[a](../README.md) [b](METHOD.md#refusals) `crates/method/specs/Exact.antt` `crates/*/src/lib.rt` "
                   "`method/weight_60` `arith/*` `tests/inputs/{files,examples}.py` `target/bin/valuation` `crates/NAME/src` "
                   "`reference.py` `specs/Exact.antt` `rt check` `a / b` `.case` `x.min(y)` [c](https://example.org/x) [d](../VERSION#L1)", [])
        self.check("    python3 bench/files.py FILE   # n/m is no path\n", [])
        self.check("Run `python3 -m tests.writers --check`, or\n\n    nice python3 -m tests.compare.reader --quick\n", [])

    def test_wrong(self):
        for word in ("crates/model/proofs/CurveWithin.antt", "model/weight_61", "modell/weight_60", "nothing/*", "tests/nothing.py",
                     "nothing.antt", "crates/{model,nothing}/src/lib.rt", "docs/nothing/", "specs/Nothing.antt"):
            self.check(f"See `{word}`.", [word])
            self.check(f"See `{word}`, and `README.md`.", [word])
        self.check("Run `python3 tests/nothing.py --check`.", ["tests/nothing.py"])
        self.check("Run\n\n    python3 tests/nothing.py\n", ["tests/nothing.py"])
        self.check("Run\n\n    ./nothing samples.txt\n", ["./nothing", "samples.txt"])
        self.check("It is in tests/nothing.py, and/or in docs/METHOD.md.", ["tests/nothing.py"])
        self.check("```\npython3 tests/nothing.py\n```\n", ["tests/nothing.py"])
        for module in ("tests.nothing", "tests.compare", "tests.compare.nothing"):
            self.check(f"Run `python3 -m {module} --quick`.", [module])
            self.check(f"Run\n\n    nice python3 -m {module}\n", [module])

    def test_wrong_links(self):
        for target in ("README.md", "../docs/NOTHING.md", "#nothing", "METHOD.md#refusal-4", "../VERSION#L2", "../VERSION#L0",
                       "../README.md#L1"):
            self.check(f"# Page\n[a]({target})", [target])
            self.check(f"# Page\n[`a`]({target})", [target])
        self.check("# A page, of sorts\n[a](#a-page-of-sorts)", [])


def without_contract(source):
    """The public functions of a source that have no `ensures`. A signature ends in the first { that ends a line."""
    heads = re.findall(r'^ *pub (?:extern "C" )?fn (\w+)(.*?\{)$', source, re.M | re.S)
    return [name for name, head in heads if "ensures" not in head]


class Contracts(unittest.TestCase):
    """Every public function has a contract, as docs/GUARANTEES.md says."""

    SOURCES = sorted(path for path in TREE if path.startswith("crates/") and path.endswith(".rt"))

    def test_every_public_function(self):
        found = [f"{path}: {name}" for path in self.SOURCES for name in without_contract(read_page(path))]
        self.assertEqual(found, [])
        self.assertGreater(sum(read_page(path).count("ensures") for path in self.SOURCES), 50)

    def test_of_the_test(self):
        held = "pub fn f(n: u64) -> u64\n    ensures { λ r. ⌜ r ≡ n ⌝ }\n{\n    n\n}\n"
        self.assertEqual(without_contract(held), [])
        self.assertEqual(without_contract(held + "pub fn g() {\n}\n" + held), ["g"])
        self.assertEqual(without_contract('pub extern "C" fn h(\n    n: u64,\n) -> u64\n    requires { ⌜ n ≤ 1 ⌝ }\n{\n'), ["h"])
        self.assertEqual(without_contract("fn private() {\n}\n"), [])


class Method(unittest.TestCase):
    """Numbers of docs/METHOD.md."""

    TEXT = read_page("docs/METHOD.md")

    def test_dump_of_c1(self):
        data = reference.encode(c1(), False, False, True)
        lines = re.search(r"^```\n(0000  .*?)^```", self.TEXT, re.M | re.S).group(1).splitlines()
        shown = {int(line[:4], 16): bytes.fromhex(line[6:]) for line in lines if not line.startswith("*")}
        for offset, part in shown.items():
            self.assertEqual(part, data[offset:offset + 16], hex(offset))
        left_out = set(range(0, len(data), 16)) - set(shown)
        self.assertFalse(any(data[offset + i] for offset in left_out for i in range(16)))
        self.assertEqual(max(shown) + 16, len(data))

    def test_lengths(self):
        """The sums that tell the longest and the shortest files, and the files themselves where cases/ has them."""
        sums = re.findall(r"(\d[\d,]*(?: \+ \d[\d,]*)+) = (\d[\d,]*) bytes", self.TEXT)
        number = lambda text: int(text.replace(",", ""))
        for terms, total in sums:
            self.assertEqual(sum(map(number, terms.split(" + "))), number(total), terms)
        lengths = [os.path.getsize(os.path.join(ROOT, "cases", name)) for name in ("largest.case", "longest.case")]
        self.assertEqual([number(total) for _, total in sums], [*lengths, 160, 280])

    def test_four_bytes(self):
        """The rates that the page writes as bytes."""
        rows = re.findall(r"`((?:[0-9A-F]{2} ){3}[0-9A-F]{2})` is (-?[\d,]+)(?: hundredths of a step)?, which is (-?[\d.]+) percent", self.TEXT)
        self.assertEqual(len(rows), 2)
        for written, rate, percent in rows:
            value = int.from_bytes(bytes.fromhex(written), "big", signed=True)
            self.assertEqual(f"{value:,}", rate)
            self.assertEqual(Fraction(value, 100_000), Fraction(percent))

    def test_weights(self):
        rows = re.findall(r"^\| (21|31|41|51) \|(.*)\|$", self.TEXT, re.M)
        self.assertEqual({int(first) + i: int(weight) for first, row in rows for i, weight in enumerate(row.split("|"))},
                         reference.WEIGHTS)

    def test_largest_widths(self):
        WL, WB = (reference.allowed_width([10 ** 8] * count) for count in (120, 60))
        for cents in (WL, WB, 3 * WL + 2 * WB + 8):
            self.assertIn(f"| {cents:,} cents |", self.TEXT)
        self.assertIn(f"| {(4 * WL + 3 * WB + 8) / 100:,.2f} euros |", self.TEXT)
        self.assertIn(f"| {(20 * WB + 21 * WL) // 20 / 100:,.2f} euros |", self.TEXT)

    def test_fund(self):
        path = os.path.join(ROOT, "cases", "fund.case")
        if not os.path.exists(path):
            self.skipTest("cases/fund.case is missing, as test_every_path_exists says")
        with open(path, "rb") as file:
            fund = reference.read(file.read())
        rounded = reference.Rounded(fund)
        for name in reference.MONEY:
            self.assertIn(f"\n| {name} | {getattr(rounded, name)[0] / 100:,.2f} |", self.TEXT)
        self.assertIn(f"\n| verdict | {rounded.verdict} |", self.TEXT)
        self.assertIn(f" {sum(getattr(rounded, name)[0] for name in reference.MONEY[3:9]) / 100:,.2f},", self.TEXT)
        WL, WB = rounded.WL, rounded.WB
        width = lambda bracket: bracket[1] - bracket[0]
        for bound, bracket in ((WL, rounded.L), (WB, rounded.A), (3 * WL + 2 * WB + 8, rounded.S)):
            self.assertIn(f" | {bound:,} cents | {width(bracket)} cents |", self.TEXT)
        self.assertIn(f"second border, in A | {(4 * WL + 3 * WB + 8) / 100:,.2f} euros |", self.TEXT)
        self.assertIn(f"first border, in A | {(20 * WB + 21 * WL) / 2000:,.2f} euros |", self.TEXT)
        for cash, verdict in ((19_260_329, "RESERVETEKORT"), (19_260_330, "ONBESLIST"), (19_260_331, "ONBESLIST"),
                              (19_260_332, "VRIJ VERMOGEN")):
            rounded = reference.Rounded(replace(fund, amounts=fund.amounts | {"cash": cash}))
            self.assertEqual(rounded.verdict, verdict)
            if cash == 19_260_330:
                for name in "LAS":
                    self.assertIn(f"\n{name} {getattr(rounded, name)[0]} {getattr(rounded, name)[1]}\n", self.TEXT)

    def test_months(self):
        rows = re.findall(r"^\| (-?[\d,]+)[^|]* \| (-?[\d,]+(?:\.\d+\.\.)?) \| (-?[\d,]+)(, which is refused)? \|$", self.TEXT, re.M)
        self.assertEqual(len(rows), 7)
        number = lambda text: Fraction(text.replace(",", "").removesuffix(".."))
        for total, mean, ufr, refused in rows:
            exact = number(total) / 120
            self.assertTrue(abs(exact) - Fraction(1, 100) < abs(number(mean)) <= abs(exact), total)
            self.assertEqual(number(ufr), 100 * floor(exact / 100 + Fraction(1, 2)))
            self.assertEqual(bool(refused), not 0 <= number(ufr) <= 5_000)
        with open(os.path.join(ROOT, "cases", "fund.months"), "rb") as file:
            months = struct.unpack(">120h", file.read())
        self.assertEqual(sum(months), number(rows[0][0]))

    def test_fund_with_months(self):
        with open(os.path.join(ROOT, "cases", "fund.case"), "rb") as file:
            fund = reference.read(file.read())
        L = {ufr: reference.Rounded(replace(fund, ufr=ufr)).L[0] for ufr in (4_200, 4_000, 3_900)}
        self.assertIn(f"L rises from {L[4_200] / 100:,.2f} to {L[3_900] / 100:,.2f} euros, by {(L[3_900] - L[4_200]) / 100:,.2f}.", self.TEXT)
        self.assertIn(f"For the fund that is {(L[3_900] - L[4_000]) / 100:,.2f} euros of L.", self.TEXT)


if __name__ == "__main__":
    unittest.main()
