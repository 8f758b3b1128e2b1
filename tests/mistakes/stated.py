"""The definitions with what is said of them in numbers, and nothing else: what mutants.py with --stated puts wrong definitions to.

The crates of definitions and those of computed statements are there as they are: all their proofs are computed statements, and plain uses
of a promise, which take it as a hypothesis. Of a crate of code that has definitions to be believed there are its types, its definitions, and
those files of its proofs that are such statements too (STATEMENTS). No function is left, no theorem and no promise: each of these may refuse
a wrong definition only because its proof no longer fits.
"""

import os
import re
import shutil

from tests.mistakes.mutant_edits import CODE, closing, read, sources, text_of, tokens_of

# Files of proofs, by their names, that are computed statements in a crate of code. Those of plain uses are there too.
STATEMENTS = ("Worked", "Pinned")
KEPT = ("use", "mod", "struct", "enum")
BODIES = ("struct", "enum", "fn", "impl", "trait", "mod", "macro_rules")


# ---------------------------------------------------------------- types alone

def code_items(text):
    """(word, text) of each item of a file of code: the word that says what it is, and all of it with its attributes."""
    tokens = tokens_of(CODE, text, "//")
    texts, found, i = text_of(tokens), [], 0
    while i < len(texts):
        end, word = item_end(texts, i)
        found.append((word, text[tokens[i].start:tokens[end].end]))
        i = end + 1
    return found


def item_end(texts, i):
    """Where the item that begins at i ends, and what it is: an attribute of the file, or an item with its own attributes before it."""
    while texts[i] == "#":
        inner = texts[i + 1] == "!"
        depth = 0
        while True:
            depth += (texts[i] == "[") - (texts[i] == "]")
            i += 1
            if depth == 0 and texts[i - 1] == "]":
                break
        if inner:
            return i - 1, "attribute"
    word, depth = next(texts[j] for j in range(i, len(texts)) if texts[j] in (*BODIES, "use", "const", "static", "type")), 0
    while depth or texts[i] != ";":
        if texts[i] == "{":
            end = closing(texts, i)
            if word in BODIES and not clause(texts, i):
                return end, word
            i = end
        depth += (texts[i] in ("(", "[")) - (texts[i] in (")", "]"))
        i += 1
    return i, word


def clause(texts, i):
    """The brace at i opens a clause of a contract, and no body."""
    return bool({"requires", "ensures", "ghost"} & {texts[i - 1], texts[i - 2]})


def types_alone(text):
    """A file of code without its functions, and without what only they use. What ghost code uses is kept where a type has ghost fields."""
    kept = [(word, item) for word, item in code_items(text) if word in KEPT or re.search(r"^impl\b[^{]*\bModel for\b", item)]
    words = set(re.findall(r"\w+", " ".join(item for word, item in kept if word != "use")))
    ghosts = any(word == "struct" and re.search(r"\bghost\b", item) for word, item in kept)
    used = lambda item: ghosts if item.startswith("ghost") else bool(words & last_names(item))
    items = [item for word, item in kept if word != "use" or used(item)]
    return "\n".join(["#![tactic(auto)]", *items]) + "\n"


def last_names(item):
    """The names that a `use` item brings in."""
    return set(re.findall(r"\w+(?=\s*[,;}])", item))


# ---------------------------------------------------------------- a crate, and the tree

def reduced(root, folder, crate):
    """A crate of code in another tree: its types, its definitions, and its statements."""
    files = {path: types_alone(read(root, path)) for path in sources(root, "src") if path.split("/")[1] == crate}
    files |= {path: read(root, path) for path in sources(root, "specs") if path.split("/")[1] == crate}
    stated = [path for path in sources(root, "proofs") if path.split("/")[1] == crate and (stem(path) in STATEMENTS or plain(path))]
    files |= {path: read(root, path) for path in stated}
    put(folder, {**files, **nodes(crate, stated, files)})


def put(folder, texts):
    """Writes {path: text} into a folder."""
    for path, text in texts.items():
        full = os.path.join(folder, path)
        os.makedirs(os.path.dirname(full), exist_ok=True)
        with open(full, "w", encoding="utf-8") as file:
            file.write(text)


def stem(path):
    return os.path.splitext(os.path.basename(path))[0]


def plain(path):
    """Whether a file of proofs has plain uses of promises: Plain.antt, PlainSizes.antt .."""
    return stem(path).startswith("Plain")


def nodes(crate, stated, files):
    """The files that name the files of proofs, each in the folder above it: Lib.antt at the top. A module of the code names itself."""
    found = {}
    for path in stated:
        inside = path.removeprefix(f"crates/{crate}/proofs/").removesuffix(".antt").split("/")
        for depth, name in enumerate(inside):
            above = "/".join(inside[:depth]) or "Lib"
            if f"crates/{crate}/src/{'/'.join(inside[:depth + 1])}.rt" not in files:
                found.setdefault(f"crates/{crate}/proofs/{above}.antt", {})[name] = None
    return {path: "".join(f"pub mod {name}\n" for name in names) for path, names in found.items()}


def stated_tree(root, folder, whole, code, deps):
    """Makes the tree in a folder, of the crates that stay whole and of the crates of code; {crate: what it depends on there}."""
    for crate in whole:
        shutil.copytree(os.path.join(root, "crates", crate), os.path.join(folder, "crates", crate), ignore=shutil.ignore_patterns("must-fail", "out"))
        put(folder, {path: re.sub(r"^mod ", "pub mod ", read(folder, path), flags=re.M) for kind in ("specs", "proofs")
                     for path in sources(folder, kind) if path.split("/")[1] == crate})
    for crate in code:
        reduced(root, folder, crate)
    there = [crate for crate in deps if crate in (*whole, *code)]
    return {crate: [dep for dep in deps[crate] if (dep in there or dep not in deps) and named(folder, crate, dep)] for crate in there}


def named(folder, crate, dep):
    """Whether a file of a crate names another crate."""
    texts = [read(folder, path) for kind in ("src", "specs", "proofs") for path in sources(folder, kind) if path.split("/")[1] == crate]
    return any(re.search(rf"\bRattle\.{dep}\.|\b{dep}::", text) for text in texts)


# ---------------------------------------------------------------- many mutants in one check

MODULE = re.compile(r"\bRattle\.\w+\.(?:specs|proofs)(?:\.[\w+-]+)+")
ALONE = "#![tactic(auto)]\n"


def module_of(path):
    """crates/model/specs/inner/Room.antt as Rattle.model.specs.inner.Room."""
    crate, rest = path.removeprefix("crates/").removesuffix(".antt").split("/", 1)
    return ".".join(["Rattle", crate, *rest.split("/")])


class Graph:
    """The files of definitions and of proofs of a tree, and which of them import which."""

    def __init__(self, root):
        self.texts = {path: read(root, path) for kind in ("specs", "proofs") for path in sources(root, kind)}
        self.paths = {module_of(path): path for path in self.texts}
        self.imports = {path: {at for name in MODULE.findall(text) if (at := self.home(name))} for path, text in self.texts.items()}

    def home(self, name):
        """The file of a name such as Rattle.model.specs.Layout.case_of, or None."""
        while name.count(".") > 2:
            if name in self.paths:
                return self.paths[name]
            name = name.rpartition(".")[0]
        return None

    def above(self, path):
        """A file, and all files that import it, directly or not."""
        found, more = set(), {path}
        while more:
            found |= more
            more = {other for other, below in self.imports.items() if below & more} - found
        return found

    def of_stage(self, path, crates, computed=False):
        """What has to be checked anew for an edit of a file: what some crates have above it, or only their computed statements, and what
        that imports of what is above it."""
        changed = self.above(path)
        found, more = set(), {other for other in changed if other.split("/")[1] in crates and (not computed or ("/proofs/" in other and not plain(other)))}
        while more:
            found |= more
            more = {below for other in more for below in self.imports[other] if below in changed} - found
        return found


def renamed(text, modules, number):
    """A text that names the copies of some modules: those of the crates that end in a number."""
    def copy(match):
        name = match.group()
        parts = name.split(".")
        known = any(".".join(parts[:n]) in modules for n in range(4, len(parts) + 1))
        return ".".join([parts[0], f"{parts[1]}_{number}", *parts[2:]]) if known else name
    return MODULE.sub(copy, text)


def copies(graph, mutant, number, crates, computed=False):
    """{path: text} of the copies that an edit needs: all that has to be checked anew, in crates of their own."""
    changed = graph.of_stage(mutant.path, crates, computed) | {mutant.path}
    modules, found, names = {module_of(path) for path in changed}, {}, {}
    for path in sorted(changed):
        crate, kind, inside = path.removeprefix("crates/").removesuffix(".antt").split("/", 2)
        home = f"crates/{crate}_{number}"
        found[f"{home}/src/lib.rt"] = ALONE
        found[f"{home}/{kind}/{inside}.antt"] = renamed(mutant.text if path == mutant.path else graph.texts[path], modules, number)
        inside = inside.split("/")
        for depth, name in enumerate(inside):
            names.setdefault(f"{home}/{kind}/{'/'.join(inside[:depth]) or 'Lib'}.antt", {})[name] = None
    return found | {path: "".join(f"pub mod {name}\n" for name in below) for path, below in names.items()}


def deps_with_copies(deps, paths):
    """What each crate depends on where some copies are there too, and what the crate `all` depends on, which is above them."""
    made = sorted({path.split("/")[1] for path in paths})
    found = dict(deps)
    for copy in made:
        crate, _, number = copy.rpartition("_")
        below = below_of(crate, deps)
        found[copy] = [crate, *below, *(f"{name}_{number}" for name in below if f"{name}_{number}" in made)]
    return {**found, "all": made}


def below_of(crate, deps):
    """The crates of a tree that one depends on, directly or not."""
    found, more = [], [dep for dep in deps[crate] if dep in deps]
    while more:
        found += more
        more = [dep for name in more for dep in deps[name] if dep in deps and dep not in found]
        more = list(dict.fromkeys(more))
    return list(dict.fromkeys(found))
