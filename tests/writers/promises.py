"""What is promised, as a section of docs/GUARANTEES.md: each function of crates/promises with its sentence, the record of its contract and
its must-fail edits, and each call whose contract has a record ..Call.

    python3 -m tests.writers.promises           writes the section, and says which promises are no longer in it
    python3 -m tests.writers.promises --check   writes nothing, and ends with 1 if the section is not what it would write
"""

import glob
import os
import re
import sys
from dataclasses import dataclass

from tests import ROOT
from tests.mistakes.edits import parts, read_text
from tests.mistakes.mutant_edits import CODE, closing, items, read, sources, text_of, tokens_of, uses
from tests.mistakes.mutants import APART

PAGE = "docs/GUARANTEES.md"
BEGIN, END = "<!-- promises: written by tests/writers/promises.py -->", "<!-- end of promises -->"
HOME = "crates/promises/src/"
CLAUSES = ("requires", "ensures", "ghost")


# ---------------------------------------------------------------- functions

@dataclass(frozen=True)
class Function:
    """A function of a file of code: what stands above it, its head, its clauses as (word, text), and its body, None where it has none."""
    path: str
    line: int
    name: str
    public: bool
    sentence: str
    attributes: tuple
    head: str
    clauses: tuple
    body: str
    imports: tuple

    @property
    def module(self):
        """crates/rolling/src/valued.rt as rolling::valued."""
        crate, _, inside = self.path.split("/", 1)[1].split("/", 2)
        inside = inside.removesuffix(".rt").split("/")
        return "::".join([crate, *([] if inside in (["lib"], ["main"]) else inside)])


def above(text):
    """The `///` sentence and the attributes at the end of a text."""
    words, attributes = [], []
    while True:
        text = text.rstrip()
        last = text[text.rfind("\n") + 1:].strip()
        if last.startswith("///"):
            words.insert(0, last.removeprefix("///").strip())
            text = text[:text.rfind("\n") + 1]
        elif attribute := re.search(r"#\[((?:[^\[\]]|\[[^\[\]]*\])*)\]\Z", text):
            attributes.insert(0, attribute[1])
            text = text[:attribute.start()]
        else:
            return " ".join(words), tuple(attributes)


def contract(text, tokens, i):
    """The clauses of the function at i, and where its body opens; None there if it is one of a trait, which has none."""
    texts, clauses, depth = text_of(tokens), [], 0
    while not (depth == 0 and texts[i] in ("{", ";")):
        if texts[i] in CLAUSES:
            start = texts.index("{", i)
            end = closing(texts, start)
            clauses.append((texts[i], text[tokens[start].end:tokens[end].start].strip()))
            i = end
        depth += (texts[i] in ("(", "[")) - (texts[i] in (")", "]"))
        i += 1
    return tuple(clauses), i if texts[i] == "{" else None


def imported(text):
    """(name, module) of the definitions that a file of code brings in."""
    lists = re.findall(r"^ *ghost use ([\w.]+)\.\{([^}]*)\};", text, re.M)
    whole = re.findall(r"^ *ghost use ([\w.]+) as (\w+);", text, re.M)
    return tuple([(name, module) for module, names in lists for name in re.findall(r"[^\s,]+", names)] + [(name, module) for module, name in whole])


def functions(root, path):
    """The functions of a file of code."""
    text = read(root, path)
    tokens, imports, found = tokens_of(CODE, text, "//"), imported(text), []
    texts = text_of(tokens)
    for i, word in enumerate(texts[:-1]):
        if word != "fn" or not re.fullmatch(r"\w+", texts[i + 1]):
            continue
        clauses, start = contract(text, tokens, i)
        begins = text.rfind("\n", 0, tokens[i].start) + 1
        first = next(j for j in range(i, len(texts)) if texts[j] in CLAUSES + ("{", ";"))
        sentence, attributes = above(text[:begins])
        body = None if start is None else text[tokens[start].end:tokens[closing(texts, start)].start]
        found.append(Function(path, text.count("\n", 0, begins) + 1, texts[i + 1], text[begins:].lstrip().startswith("pub "), sentence, attributes,
                              text[tokens[i].start:tokens[first].start].strip(), clauses, body, imports))
    return found


# ---------------------------------------------------------------- types of the definitions

def spec_path(module):
    """Rattle.model.specs.Layout as crates/model/specs/Layout.antt; None for a module of the toolchain, of proofs, or of declared types."""
    words = module.split(".")
    if words[0] != "Rattle" or words[2:3] != ["specs"] or words[1] == "std" or "declared" in words:
        return None
    return f"crates/{words[1]}/specs/{'/'.join(words[3:])}.antt"


def types(root, path):
    """{type: (the line where it stands, the words of what it is)} of a file of definitions: records, data, and names for a type."""
    text = read(root, path)
    found, clauses = {}, {}
    for item in items(text):
        texts = text_of(item)
        words = [word for word in texts[:4] if word not in ("pub", "abbrev", "unfoldable", "opaque")]
        line = text.count("\n", 0, item[0].start) + 1
        if words and words[0] in ("record", "data"):
            found[words[1]] = (line, texts)
        elif words[1:2] == [":"] and texts[-2:] == ["Type", "0"]:
            found[words[0]] = (line, texts)
        elif "=" in texts:
            clauses.setdefault(texts[0], []).extend(texts)
    return {name: (line, texts + clauses.get(name, [])) for name, (line, texts) in found.items()}


def declared(root, name, imports):
    """(file, line) of the type that a name stands for in a file of code, or None where it is none of the definitions."""
    module, dot, last = name.rpartition(".")
    home = dict(imports).get(module if dot else name)
    path = home and spec_path(home)
    if not path or not os.path.exists(os.path.join(root, path)):
        return None
    known = types(root, path)
    return (path, known[last][0]) if last in known else None


def split(term, sign):
    """The parts of a term between the signs that stand in no bracket."""
    depth, pieces = 0, [""]
    for letter in term:
        depth += (letter in "({") - (letter in ")}")
        if letter == sign and depth == 0:
            pieces.append("")
        else:
            pieces[-1] += letter
    return [piece.strip() for piece in pieces]


def conclusions(term):
    """What a clause says in the end, as lists of words: of `(k : Case) → Within k → Saved k × Read k` [Saved, k] and [Read, k]."""
    last = split(term, "→")[-1]
    found = []
    for part in split(last, "×"):
        if part.startswith("(") and part.endswith(")"):
            found += conclusions(part[1:-1])
        else:
            found.append(re.findall(r"[^\s()]+", part))
    return found


def concluded(function):
    """The conclusions of the contract of a promise."""
    return [words for kind, term in function.clauses if kind == "ensures" for words in conclusions(term)]


def records(root, function):
    """The names of the definitions that the conclusions of a promise name: of `OfEvery FactorsAreNarrow` both."""
    names = dict.fromkeys(name for words in concluded(function) for name in words)
    return [name for name in names if declared(root, name, function.imports)]


def call_records(function):
    """The names ..Call in a function's contract."""
    words = [word for kind, term in function.clauses if kind == "ensures" for word in re.findall(r"[\w.]*\bCall\b|[\w.]*Call\b", term)]
    return list(dict.fromkeys(words))


# ---------------------------------------------------------------- promises and calls

def modules(root):
    """The files of promises, in the order in which lib.rt names them."""
    names = re.findall(r"^pub mod (\w+);", read(root, HOME + "lib.rt"), re.M)
    return [f"{HOME}{name}.rt" for name in names]


def promises(root):
    """Every function of the crate `promises`, in its order."""
    return [function for path in modules(root) for function in functions(root, path)]


def crate_order(root):
    return re.findall(r"^(\w+)[^:\n#]*:", read(root, "crates.txt"), re.M)


def code(root):
    """Every function of the other crates, in the order of crates.txt."""
    order = crate_order(root)
    paths = [path for path in sources(root, "src") if path.endswith(".rt") and not path.startswith(HOME) and path.split("/")[1] in order]
    return [function for path in sorted(paths, key=lambda path: order.index(path.split("/")[1])) for function in functions(root, path)]


def calls(root):
    """The public functions that have a record ..Call in their contract."""
    return [function for function in code(root) if function.public and call_records(function)]


def edits(root):
    """{promise, as promises::saving::name: the edits whose comment names it}."""
    found = {}
    for path in sorted(glob.glob(os.path.join(root, "crates", "*", "must-fail", "*.edit"))):
        crate, _, name = os.path.relpath(path, os.path.join(root, "crates")).removesuffix(".edit").split(os.sep)
        for promise in re.findall(r"promises(?:::\w+)+", parts(read_text(path))[0]):
            found.setdefault(promise, []).append(f"{crate}/{name}")
    return found


# ---------------------------------------------------------------- the section

def link(text, path, line):
    return f"[`{text}`](../{path}#L{line})"


def definition(root, function, name):
    """A record by its name, with a link to where it stands."""
    at = declared(root, name, function.imports)
    return link(name.rpartition(".")[2], *at) if at else f"`{name}`"


def row(*cells):
    return "| " + " | ".join(cell.replace("|", "\\|") for cell in cells) + " |"


def head_comment(root, path):
    """The comment that a file begins with."""
    lines = read(root, path).splitlines()
    first = next((i for i, line in enumerate(lines) if not line.startswith("// ")), len(lines))
    return " ".join(line.removeprefix("// ") for line in lines[:first])


def promise_row(root, function, named):
    edits_of = [f"`{edit}`" for edit in named.get(f"{function.module}::{function.name}", [])]
    found = [definition(root, function, name) for name in records(root, function)]
    return row(link(function.name, function.path, function.line), function.sentence, ", ".join(found), ", ".join(edits_of))


def call_row(root, function):
    name = function.name if function.module == "host" else f"{function.module}::{function.name}"
    return row(link(name, function.path, function.line), ", ".join(definition(root, function, name) for name in call_records(function)))


def section(root):
    """The text between the two marker lines."""
    named, made = edits(root), promises(root)
    lines = ["## The promises", "",
             f"Each promise is a function of the crate [`promises`](../{HOME}lib.rt), and there are {len(made)}. It takes nothing and does nothing: "
             "its contract is the sentence with its premises, of every file, case, window or history, and what that means is the record in the "
             "third column, which stands among the definitions. An edit is a wrong version, of that record or of code, that the prover refuses.", ""]
    for path in modules(root):
        lines += [f"### `{os.path.basename(path).removesuffix('.rt')}`", "", head_comment(root, path), "",
                  row("Promise", "In words", "Definition", "Edits"), "|---|---|---|---|"]
        lines += [promise_row(root, function, named) for function in made if function.path == path] + [""]
    lines += ["### Calls", "", "What is promised of a call stands in its own contract too, over the call's own arguments.", "",
              row("Function", "Record of its contract"), "|---|---|"]
    return "\n".join([BEGIN, *lines, *(call_row(root, function) for function in calls(root)), END]) + "\n"


def written(page, new):
    """The page with another section between its markers."""
    begin, end = page.index(BEGIN), page.index(END) + len(END) + 1
    return page[:begin] + new + page[end:]


def listed(page):
    """The promises that the section of a page has, as promises::saving::name."""
    rows = re.findall(r"^\| \[`(\w+)`\]\(\.\./crates/promises/src/(\w+)\.rt#L\d+\) \|", page[page.index(BEGIN):page.index(END)], re.M)
    return [f"promises::{module}::{name}" for name, module in rows]


def gone(root, page):
    """The promises that a page lists and the crate does not have."""
    there = {f"{function.module}::{function.name}" for function in promises(root)}
    return [name for name in listed(page) if name not in there]


# ---------------------------------------------------------------- what the tests look at

def faults(root):
    """What is no promise in the crate `promises`, in words."""
    found = [f"{path}: lib.rt has no `pub mod` of it" for path in sources(root, "src")
             if path.startswith(HOME) and path != HOME + "lib.rt" and path not in modules(root)]
    found += [f"{path}: it has a use of proofs" for path in modules(root) if re.search(r"ghost use Rattle\.\w+\.proofs\b", read(root, path))]
    found += [f"{HOME}lib.rt: {function.name} stands in no module" for function in functions(root, HOME + "lib.rt")]
    return found + [f"{promise.module}::{promise.name}: {fault}" for promise in promises(root) for fault in faults_of(root, promise)]


def faults_of(root, function):
    """What is wrong with one promise."""
    tests = {
        "it is not public": not function.public,
        "it has no sentence": not function.sentence.endswith("."),
        "it has more than its name and ()": function.head != f"fn {function.name}()",
        "its body is not empty": function.body != "",
        "it has an attribute that is no tactic": any(not attribute.startswith("tactic(") for attribute in function.attributes),
        "it has no contract, or more than `ensures`": {word for word, _ in function.clauses} != {"ensures"},
    }
    return [fault for fault, holds in tests.items() if holds] + [
        f"{name} is no type of a specs/ that the file brings in" for name, *_ in concluded(function) if not declared(root, name, function.imports)]


def promise_types(root):
    """{(file, type): its words} of every crates/*/specs/Promises.antt, and of every other file that has the record of a promise."""
    paths = {path for path in sources(root, "specs") if path.endswith("/specs/Promises.antt")}
    paths |= {declared(root, name, promise.imports)[0] for promise in promises(root) for name in records(root, promise)}
    return {(path, name): words for path in paths for name, (_, words) in types(root, path).items()}


def in_contracts(root):
    """(file, type) of every definition that a contract names."""
    found = set()
    for function in promises(root) + code(root):
        words = {word for _, term in function.clauses for word in re.findall(r"[\w.]+", term)}
        found |= {(spec_path(module), name) for name, module in function.imports if name in words}
    return found


def unused(root):
    """The types in the files of promises that no contract names, nor another such type that one does."""
    known = promise_types(root)
    homes = {path: {name: spec_path(line.module) for line in uses(read(root, path)) for name in line.names} for path, _ in known}
    todo, reached = [key for key in in_contracts(root) if key in known], set()
    while todo:
        key = todo.pop()
        if key not in reached:
            reached.add(key)
            path = key[0]
            todo += [at for word in known[key] if (at := (homes[path].get(word, path), word)) in known]
    return sorted(f"{path}: {name}" for path, name in set(known) - reached)


def theorems(root):
    """{public theorem: the files of proofs that have it}, also of those behind common parameters; no fields of records."""
    found = {}
    for path in sources(root, "proofs"):
        text = read(root, path)
        starts = [item[0].start for item in items(text)] + [len(text)]
        for start, end in zip(starts, starts[1:]):
            if not re.match(r"(pub )?(record|data)\b", text[start:end]):
                for name in re.findall(r"^ *pub ([^\s:({]+)(?: \{[^}]*\})? :", text[start:end], re.M):
                    found.setdefault(name, []).append(path)
    return found


def others(root):
    """The names that the definitions and the computed statements have: one that a page names is theirs, if a theorem has it too."""
    found = set()
    for path in sources(root, "specs"):
        found |= set(re.findall(r"^ *(?:\w+ )*?pub (?:record )?([^\s:({]+)", read(root, path), re.M))
    for crate in APART["definitions"] + APART["long"]:
        for path in glob.glob(os.path.join(root, "crates", crate, "proofs", "*.antt")):
            found |= set(re.findall(r"^([^\s:({]+) :", read_text(path), re.M))
    return found


def of_contracts(root):
    """The lemmas that the attribute of a function names, in whatever crate: its contract rests on them."""
    attributes = [found for path in glob.glob(os.path.join(root, "crates", "*", "src", "**", "*.rt"), recursive=True)
                  for found in re.findall(r"^#\[tactic\(auto, using\(([\w:, ]+)\)", read_text(path), re.M)]
    return {name.strip().rpartition("::")[2] for found in attributes for name in found.split(",")}


def cited(root):
    """The words of the files of proofs that the promises take their lemmas from."""
    named = [re.findall(r"(\w+)::proofs::([\w:]+)::\w+", attribute) for function in promises(root) for attribute in function.attributes]
    paths = {f"crates/{crate}/proofs/{module.replace('::', '/')}.antt" for found in named for crate, module in found}
    return {word for path in paths if os.path.exists(os.path.join(root, path)) for word in re.findall(r"[\w²'-]+", read(root, path))}


def only_named(root):
    """The theorems that README.md and docs/GUARANTEES.md name, and that neither a promise nor another contract rests on: nothing would refuse
    it if one of them went."""
    known = theorems(root)
    pages = "\n".join(read(root, page) for page in ("README.md", PAGE))
    words = {span.rpartition("::")[2] for span in re.findall(r"`([^`\s]+)`", pages)}
    return sorted(f"{name} ({', '.join(known[name])})" for name in words & set(known) - others(root) - cited(root) - of_contracts(root))


# ---------------------------------------------------------------- the command

def main(argv):
    page = read(ROOT, PAGE)
    new = written(page, section(ROOT))
    for name in gone(ROOT, page):
        print(f"no longer promised: {name}")
    if "--check" in argv:
        if new != page:
            print(f"{PAGE}: the section of promises is not what tests/writers/promises.py writes")
        return int(new != page)
    with open(os.path.join(ROOT, PAGE), "w", encoding="utf-8") as file:
        file.write(new)
    return 0


if __name__ == "__main__":
    sys.exit(main(sys.argv[1:]))
