"""The repository stands alone: no file cites a paper or the number of a task, a section of docs/METHOD.md that is cited is there, and
what is listed is listed once.

The patterns and the sentences below are put together of parts, so that this file keeps its own rule."""

import os
import re
import subprocess
import unittest

from tests import ROOT

METHOD = "docs/METHOD.md"
MAINTAINING = "docs/MAINTAINING.md"
README = "README.md"
README_MOST = 120

# Between two words: blanks, line ends with the marks of a comment, and the hyphens of an anchor.
GAP = r"[\s\-/#*!]+"
NUMBERS = "(?:One|Two|Three|Four|Five|Six|Seven|Eight|Nine|Ten|Eleven|Twelve)"

# What no file says: a name, the pattern, and a sentence that has it. Case does not matter.
EVERYWHERE = [
    ("a document by its number", r"\bdocuments?" + GAP + r"0?[12]\b", "It is as docu" "ment 01 says."),
    ("a source by its number", r"\bsource" + GAP + "document", "See source docu" "ment 004."),
    ("a task by its number", r"\brequests?" + GAP + NUMBERS + r"\b", "It came with requ" "est Five."),
    ("a demand by its number", r"\bdemands?" + GAP + r"[1-3]\b", "That is dem" "and 3."),
    ("a demand as a name", r"demand" + "[1-3]", "It is the record Dem" "and3."),
    ("a demand in its order", r"\b(?:first|second|third|three)" + GAP + r"demands?\b", "The third dem" "and holds."),
    ("a demand of a paper", r"\bthe" + GAP + r"demands?\b", "The widths are the dem" "and's own."),
    ("a paper", r"\bth(?:e|is|at|ese|ose)" + GAP + r"papers?\b", "So the pap" "er's words are these."),
]

# What no page says: there "01" and a bare capital number stood for a paper and a task.
IN_PAGES = [
    ("a paper as a number", r"\b0[12]'s\b|\(0[12]\)|\bof 0[12]\b|\"0[12]\"", "It is 0" "1's number."),
    ("a task as a number", r"\b(?:[Ss]ince|[Uu]ntil|[Ff]or|[Bb]efore|[Aa]fter|[Bb]etween)" + GAP + NUMBERS + r"\b",
     "It is so since" " Six."),
]

# Sentences that say something else with the same words.
RIGHT = [
    "A document of 12 pages, and 01 as a byte.", "The source is documented.", "Twelve requests a day, one of five words.",
    "On demand 4 bytes are read.", "It demands 12 bytes.", "The demanding one comes first.", "A paper of the repository.",
    "It is refused_01, of 012 bytes, (12) or \"03\".", "Since sixteen bytes are read, for one day.", "Until the sixth day.",
]


# ---------------------------------------------------------------- the tree

def listed():
    """Every file that git knows or would add; without git, every file but build products."""
    try:
        done = subprocess.run(["git", "-C", ROOT, "ls-files", "-z", "--cached", "--others", "--exclude-standard"],
                              capture_output=True, check=True)
        return sorted(set(done.stdout.decode().split("\0")) - {""})
    except (OSError, subprocess.CalledProcessError):
        return sorted(walked())


def walked():
    for folder, folders, names in os.walk(ROOT):
        folders[:] = [name for name in folders if name not in (".git", "target", "out", "__pycache__")]
        yield from (os.path.relpath(os.path.join(folder, name), ROOT) for name in names)


def text_of(path):
    """The text of a file; None of one that is gone, and of one that is no text."""
    try:
        with open(os.path.join(ROOT, path), "rb") as file:
            data = file.read()
        return None if b"\0" in data else data.decode("utf-8")
    except (FileNotFoundError, IsADirectoryError, UnicodeDecodeError):
        return None


TEXTS = {path: text for path in listed() if (text := text_of(path)) is not None}


# ---------------------------------------------------------------- what a text says

def citations(path, text):
    """What a file says, or is called, that it should not: its line, the pattern's name, the words."""
    page = path.endswith(".md")
    found = [(text.count("\n", 0, match.start()) + 1, name, match.group())
             for patterns, flags in ((EVERYWHERE, re.I), (IN_PAGES if page else [], 0)) for name, pattern, _ in patterns
             for match in re.finditer(pattern, text, flags)]
    found += [(0, name, path) for name, pattern, _ in EVERYWHERE if re.search(pattern, path, re.I)]
    return [f"{path}:{line}: {name}: {' '.join(words.split())}" for line, name, words in sorted(found)]


def sections(text):
    """The names of a page's sections, which are its headings of the second level."""
    return re.findall(r"^## (.*)$", re.sub(r"^```.*?^```", "", text, flags=re.M | re.S), re.M)


def after_patch(text):
    """The lines that a patch leaves or adds, without their marks, in the places where they were."""
    return re.sub(r"^[+ ]", "", text, flags=re.M)


def unknown_sections(path, text, known):
    """The places where a comment or a page cites a section of METHOD that is not there. A name may go on in the next line. A patch may
    cite the sections that it brings."""
    if path.endswith(".patch"):
        text = after_patch(text)
        known = known + sections(text)
    names = sorted(known, key=len, reverse=True)
    found = []
    for match in re.finditer(r"\bMETHOD," + GAP + r"(?=[A-Z])", text):
        words = re.sub(GAP, lambda gap: gap.group() if gap.group() == "-" else " ", text[match.end():match.end() + 120])
        if not any(re.match(re.escape(name) + r"\b", words) for name in names):
            found.append(f"{path}:{text.count(chr(10), 0, match.start()) + 1}: {words[:40]}")
    return found


def plain(text):
    """Without the marks of a page, with one blank between two words, and in small letters."""
    return " ".join(re.sub(r"[*`]", "", text).split()).lower()


def quotations(text):
    """What the comments of a file of definitions have in quotes, each in the parts that two dots separate."""
    blocks = re.findall(r"(?:^ *-- .*\n?)+", text, re.M)
    quoted = [words for block in blocks for words in re.findall(r'"([^"]+)"', plain(re.sub(r"^ *-- ", "", block, flags=re.M)))]
    return [part for words in quoted for part in (one.strip(" .,;:") for one in re.split(r"\.\.+", words)) if part]


def crates():
    return re.findall(r"^(\w+)[^:#\n]*:", TEXTS["crates.txt"], re.M)


def crates_listed(text):
    """The crates that the first cells of a page's tables name."""
    cells = " ".join(re.findall(r"^\|([^|\n]*)\|", text, re.M))
    return set(re.findall(r"`(\w+)`", cells)) & set(crates())


# ---------------------------------------------------------------- the tests

class Alone(unittest.TestCase):
    def test_no_file_cites_a_paper(self):
        found = [line for path, text in TEXTS.items() for line in citations(path, text)]
        self.assertEqual(len(found), 0, "\n" + "\n".join(found))

    def test_files_are_looked_at(self):
        self.assertGreater(len(TEXTS), 300)
        self.assertIn(README, TEXTS)
        self.assertIn(os.path.relpath(os.path.abspath(__file__), ROOT), TEXTS)

    def test_sections_that_are_cited(self):
        known = sections(TEXTS[METHOD])
        found = [line for path, text in TEXTS.items() for line in unknown_sections(path, text, known)]
        self.assertEqual(len(found), 0, "\n" + "\n".join(found))

    def test_quotations_at_definitions(self):
        """Each is METHOD's own, word for word."""
        method, looked_at = plain(TEXTS[METHOD]), 0
        for path, text in TEXTS.items():
            if re.fullmatch(r"crates/\w+/specs/.*\.antt", path):
                parts = quotations(text)
                self.assertEqual([part for part in parts if part not in method], [], path)
                looked_at += len(parts)
        self.assertGreater(looked_at, 200)

    def test_contents_of_method(self):
        """The list at its head names each section once, in order."""
        head = TEXTS[METHOD].partition("\n## ")[0]
        self.assertEqual(re.findall(r"^- \[([^\]]*)\]\(#", head, re.M), sections(TEXTS[METHOD]))


class ListedOnce(unittest.TestCase):
    def test_readme_is_short(self):
        self.assertLessEqual(len(TEXTS[README].splitlines()), README_MOST)

    def test_crates(self):
        """Beside crates.txt one page lists the crates, all of them, and no other page lists most of them."""
        self.assertEqual(crates_listed(TEXTS[MAINTAINING]), set(crates()))
        for path, text in TEXTS.items():
            if path.endswith(".md") and path != MAINTAINING:
                self.assertLessEqual(2 * len(crates_listed(text)), len(crates()), path)


class TestOfTheTest(unittest.TestCase):
    """Wrong sentences are caught, each by its own pattern, and right ones by none."""

    def test_wrong(self):
        for patterns, path in ((EVERYWHERE, "crates/x/src/lib.rt"), (IN_PAGES, "docs/PAGE.md")):
            for name, _, sentence in patterns:
                found = citations(path, "First line.\n" + sentence)
                self.assertTrue(any(line.startswith(f"{path}:2: {name}: ") for line in found), (name, found))

    def test_in_pages_only(self):
        for _, _, sentence in IN_PAGES:
            self.assertEqual(citations("tests/x.py", sentence), [])

    def test_right(self):
        for sentence in RIGHT:
            self.assertEqual(citations("docs/PAGE.md", sentence), [], sentence)

    def test_in_a_comment_over_two_lines(self):
        for mark in ("-- ", "// ", "/// ", "# ", " * ", ""):
            self.assertEqual(len(citations("x.rt", f"{mark}as docu" f"ment\n{mark}01 has it")), 1, mark)

    def test_by_the_name_of_a_file(self):
        self.assertEqual(len(citations("crates/x/specs/Dem" "and3.antt", "")), 1)

    def test_sections(self):
        known = ["Refusals", "The case file", "Buffers, window, listing"]
        cite = "METHOD" ", "
        for right in ("Refusals.", "Refusals: why", "Buffers, window, listing)", "The\n-- case file, and more", "The case file](x)"):
            self.assertEqual(unknown_sections("x", "See " + cite + right, known), [], right)
        for wrong in ("Refusal.", "The case", "Buffers, window", "Refusalsome", "Nothing"):
            self.assertEqual(len(unknown_sections("x", "See " + cite + wrong, known)), 1, wrong)
        self.assertEqual(unknown_sections("x", "METHOD" ", in its words", known), [])

    def test_sections_of_a_patch(self):
        cite = "+METHOD" ", "
        right = "+++ b/docs/METHOD.md\n@@ -1,2 +1,3 @@\n # Method\n+## A new one\n"
        for words in ("Refusals", "A new one", "A new\n+one"):
            self.assertEqual(unknown_sections("x.patch", right + cite + words, ["Refusals"]), [], words)
        self.assertEqual(len(unknown_sections("x.patch", right + cite + "Another", ["Refusals"])), 1)
        self.assertEqual(len(unknown_sections("x.txt", right + cite + "A new one", ["Refusals"])), 1)

    def test_quotations(self):
        text = '-- A rate, "each 2\n-- bytes"; not "this" .. and "The map .. in bit order."\nx = "code"\n'
        self.assertEqual(quotations(text), ["each 2 bytes", "this", "the map", "in bit order"])
        self.assertEqual(plain("**The**  `map`\nis"), "the map is")

    def test_crates_listed(self):
        rows = "".join(f"| `{name}` | `arith` |\n" for name in crates()[1:])
        self.assertEqual(crates_listed(rows), set(crates()[1:]))
        self.assertEqual(crates_listed("`model` and `method` in prose, and | `arith` | in the middle\n"), set())

    def test_sections_of_a_page(self):
        self.assertEqual(sections("# A\n## B\n```\n## C\n```\n### D\n## E, f\n"), ["B", "E, f"])


if __name__ == "__main__":
    unittest.main()
