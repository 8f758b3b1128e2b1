"""One-token wrong edits of the definitions (crates/NAME/specs/*.antt) and of the code (crates/NAME/src/*.rt), and records with a field less.

mutants.py puts them to the prover; this module only makes them. Comments, `use` lines, signatures, the heads of records and what stands
left of a clause's `=` are left alone; the statements in records are definitions, and are edited.
"""

import os
import re
from collections import Counter
from dataclasses import dataclass

LEFT_OUT = "left out"
DROPPED = "dropped"  # the kind of the edits that are more than a token: a field of a record is left out

# ---------------------------------------------------------------- what is exchanged for what

# The variants of `Refusal`.
REFUSALS = ("EndsEarly BytesFollow WrongFields DayCount Rate Forward FlowCount Flow Ufr Amount Shock People Buffers Room WindowFull WindowEmpty "
            "History Month MonthsUfr Damaged").split()

# One token for another of the same type, by the kind of the mistake.
EXCHANGED = {
    "order": {"≤": "<", "<": "≤", "nat_le": "nat_lt", "nat_lt": "nat_le", "≤ℤ": "<ℤ", "<ℤ": "≤ℤ", "le_z": "lt_z", "lt_z": "le_z", "less": "at_most",
              "at_most": "less", "max": "min"},
    "end": {"low": "high", "high": "low", "lower": "upper", "upper": "lower", ".lower": ".upper", ".upper": ".lower",
            "lower_test": "upper_test", "upper_test": "lower_test", "e": "(other e)"},
    "curve": {"base": "up", "up": "down", "down": "up"},
    "verdict": {"Dekkingstekort": "Reservetekort", "Reservetekort": "VrijVermogen", "VrijVermogen": "Onbeslist",
                "Onbeslist": "Dekkingstekort", "Factor": "Money", "Money": "Factor"},
    # Each for the one before, since `People` in Layout is the type.
    "refusal": dict(zip(REFUSALS, REFUSALS[-1:] + REFUSALS)) | {"Refusal.People": "Shock"},
    "operator": {"+": "-", "-": "+", "/": "%", "%": "/", "+ᶠ": "∸ᶠ", "∸ᶠ": "+ᶠ", "*ᶠ": "÷ᶠ", "÷ᶠ": "*ᶠ", "+ℤ": "-ℤ", "-ℤ": "+ℤ"},
    "list": {"take": "drop", "drop": "take"},
    "truth": {"true": "false", "false": "true", "&&": "||"},
    "field": {".0": ".1", ".1": ".0"},
}

# Functions that may be left out, since what they make has the type of what they take.
UNARY = {"other", "suc", "neg_ℤ", "not", "square"}

# Names of one type, in an order: each is exchanged for the one behind it, the last for the one before.
NAMES = [
    ("L", "B"), ("S1", "S2", "S3", "S4", "S5", "S6", "S"), ("WL", "WB"), ("first_margin", "second_margin"), ("growth", "weighed"),
    ("days_at", "day_count"), ("factors", "rates"),
]

# The same for the variables of one file, which elsewhere have another type.
VARIABLES = {
    "Fields": [("x", "y"), ("f", "g"), ("c", "r"), ("least", "most")], "Layout": [(".ufr", ".bonds", ".amounts")],
    "Fraction": [("x", "y")], "Exact": [("a", "l"), ("factor", "unadjusted"), ("G", "growth")], "Margins": [("a", "l")],
    "Rounding": [("a", "b")], "Root": [("n", "d")],
    "Rounded": [("s1", "s2", "s3", "s4", "s5", "s6"), ("a", "l"), ("h", "d"), ("factor", "unadjusted")],
}

# The modules of the toolchain's names that a mutant may need and its file may lack. Other names are looked for in the definitions.
KIT = {
    "Rattle.std.specs.Prelude": "◌≤◌ ◌<◌ ◌+◌ ◌-◌ ◌*◌ ◌/◌ ◌%◌ min nat_le nat_lt ◌≤ℤ◌ ◌<ℤ◌ ◌+ℤ◌ ◌-ℤ◌ take drop true false ◌||◌",
    "Rattle.std.specs.Int.Signed": "le_z lt_z",
}
# The variants that are exchanged, by the crate and the module of their type.
VARIANTS = {
    ("model", "figures.Verdict"): "Dekkingstekort Reservetekort VrijVermogen Onbeslist", ("model", "window.Point"): "Factor Money",
    ("refusal", "Refusal"): " ".join(REFUSALS),
}


@dataclass(frozen=True)
class Mutant:
    """One edit: `new` for the `nth` token `old` of a definition. `text` is the whole file with it."""
    path: str
    name: str
    kind: str
    old: str
    nth: int
    new: str
    line: int
    text: str

    @property
    def key(self):
        """Stable under changes elsewhere: it counts only the same tokens of the same definition."""
        return f"{where(self.path)}:{self.name}:{self.old}#{self.nth}→{self.new or LEFT_OUT}"


def where(path):
    """crates/method/specs/Exact.antt as model/Exact; crates/curves/src/sums.rt as curves/src/sums."""
    crate, folder, rest = path.split("/", 1)[1].split("/", 2)
    rest = os.path.splitext(rest)[0]
    return f"{crate}/{rest}" if folder == "specs" else f"{crate}/{folder}/{rest}"


# ---------------------------------------------------------------- tokens

@dataclass(frozen=True)
class Token:
    text: str
    start: int

    @property
    def end(self):
        return self.start + len(self.text)


# A projection `.field` is a token of its own; a name with its module in front, as Exact.L, is one token.
ANTT = re.compile(r'--[^\n]*|"(?:\\.|[^"\\])*"|[(){};,]|[A-Z][^\s(){};,"]*|\.[^\s(){};,".]+|[^\s(){};,".]+|\.')
CODE = re.compile(r'//[^\n]*|b?"(?:\\.|[^"\\])*"|[A-Za-z_]\w*|\d\w*|[<>=!+\-*/%&|]=|&&|\|\||->|=>|::|\.\.|\S')


def tokens_of(pattern, text, comment):
    return [Token(m.group(), m.start()) for m in pattern.finditer(text) if not m.group().startswith(comment)]


def text_of(tokens):
    return [t.text for t in tokens]


# ---------------------------------------------------------------- a file of definitions

HEADS = {"use", "unfolding", "mod", "infix", "infixl", "infixr"}
MODIFIERS = {"abbrev", "unfoldable", "opaque", "pub"}


def items(text):
    """The tokens of each item: it begins at the left edge, and a brace or parenthesis that is open there goes on."""
    found, depth = [], 0
    for token in tokens_of(ANTT, text, "--"):
        at_edge = token.start == 0 or text[token.start - 1] == "\n"
        if at_edge and depth == 0:
            found.append([])
        found[-1].append(token)
        depth += (token.text in ("(", "{")) - (token.text in (")", "}"))
    return found


def bodies(item):
    """(name, tokens) of each definition in an item: the right side of a clause, or the statement of each field of a record."""
    texts = text_of(item)
    if texts[0] in HEADS:
        return []
    head = [t for t in texts[:3] if t not in MODIFIERS]
    if head and head[0] == "record" and "where" in texts:
        return fields(texts[texts.index("record") + 1], item[texts.index("where") + 1:])
    if texts[0] in MODIFIERS or "=" not in texts:
        return []
    return [(texts[0], item[texts.index("=") + 1:])]


def fields(record, tokens):
    """The statement behind the colon of each field `pub NAME : ..`."""
    starts = [i for i, t in enumerate(tokens) if t.text == "pub"] + [len(tokens)]
    return [(f"{record}.{tokens[i + 1].text}", tokens[i + 3:j]) for i, j in zip(starts, starts[1:])]


def names_something(texts, i):
    """Token i names what stands behind it: a field or a `let` before its `=`, or a bound variable before its colon or point."""
    after = i + 1
    while after < len(texts) and re.fullmatch(r"[\w²]+", texts[after]):
        after += 1
    return texts[i + 1:i + 2] == ["="] or (i > 0 and texts[after:after + 1] in ([":"], ["."]))


# ---------------------------------------------------------------- what a token may become

def neighbour(chain, name):
    """What `name` is exchanged for in a chain of names: the one behind it, or the one before the last."""
    i = chain.index(name)
    return chain[i + 1] if i + 1 < len(chain) else chain[i - 1]


def numbers(digits):
    """A number one up, one down, and doubled. 0 has none below, and twice 1 is one up."""
    n = int(digits)
    return [("up", str(n + 1))] + ([("down", str(n - 1))] if n > 0 else []) + ([("doubled", str(2 * n))] if n > 1 else [])


def exchanged_token(token):
    return [(kind, table[token]) for kind, table in EXCHANGED.items() if token in table]


def exchanged_field(token, chains):
    """`.NAME` for the next field of the same type, in each record that has such a field."""
    return [("field", f".{neighbour(chain, token[1:])}") for chain in chains if token[1:] in chain]


def exchanged_name(token, stem):
    """A name, also a qualified one, for another of its chain."""
    module, dot, name = token.rpartition(".")
    if dot and module not in ("Rounded", "Exact"):
        return []
    chains = [c for c in NAMES + VARIABLES.get(stem, []) if name in c]
    return [("name", module + dot + neighbour(chain, name)) for chain in chains]


def replacements(texts, i, stem, chains):
    """(kind, text) of all that takes the place of token i of a definition, without doubles."""
    token = texts[i]
    if names_something(texts, i) or (token == "e" and texts[i - 1:i] == ["other"]):
        return []
    if re.fullmatch(r"\d+", token):
        return numbers(token)
    if token.startswith('"'):
        return [("text", token[:-1] + ' "')]
    if token in UNARY:
        return [("left out", "")]
    found = exchanged_token(token) + (exchanged_field(token, chains) if token.startswith(".") else exchanged_name(token, stem))
    return list({new: (kind, new) for kind, new in found}.values())


# ---------------------------------------------------------------- records and structs

@dataclass(frozen=True)
class Type:
    """A record, struct or enum: the words of its declaration, and its fields of one type as chains, in their order."""
    words: frozenset
    chains: tuple


def types(root):
    """{name: Type} of every record, struct and enum under crates/."""
    found = {}
    for path in sources(root, "specs") + sources(root, "src"):
        text = read(root, path)
        for name, fields_of in (record_types(text) if path.endswith(".antt") else struct_types(text)).items():
            chains = [tuple(f for f in fields_of if fields_of[f] == kind) for kind in dict.fromkeys(fields_of.values())]
            words = frozenset(re.findall(r"\w+", " ".join(fields_of.values())))
            found[name] = Type(words, tuple(chain for chain in chains if len(chain) > 1))
    return found


def record_types(text):
    """{record: {field: its type}} of a file of definitions."""
    records = {}
    for item in items(text):
        for name, tokens in bodies(item):
            record, dot, field = name.partition(".")
            if dot:
                records.setdefault(record, {})[field] = " ".join(text_of(tokens))
    return records


def struct_types(text):
    """{struct: {field: its type}} of a file of code, names as the definitions write them; of an enum, its variants' parts as one field."""
    structs = {}
    for name, body in re.findall(r"\bstruct (\w+) \{(.*?)\n\}", text, re.S):
        pairs = re.findall(r"^\s*pub (\w+): (.*),$", body, re.M)
        structs[name] = dict(pairs)
    for name, body in re.findall(r"\benum (\w+) \{(.*?)\n\}", text, re.S):
        structs[name] = {"": body}
    return structs


def chains_in(words, known):
    """The chains of fields of the types that some words name, and of the types that their fields have, and so on."""
    reached, todo = {}, [w for w in known if w in words]
    while todo:
        name = todo.pop()
        if name not in reached:
            reached[name] = known[name].chains
            todo += [w for w in known if w in known[name].words]
    return list(dict.fromkeys(chain for chains in reached.values() for chain in chains))


# ---------------------------------------------------------------- names that a mutant needs

def symbols(new):
    """The names that a replacement uses, as a `use` line writes them."""
    if not new or new.startswith((".", '"')):
        return []
    words = [w for w in re.findall(r"[^\s()]+", new) if "." not in w and not w.isdigit()]
    return [w if re.match(r"\w", w) else f"◌{w}◌" for w in words]


@dataclass(frozen=True)
class Use:
    """A line `use MODULE.{NAMES}`, where its last name ends, and where it ends itself."""
    module: str
    names: frozenset
    last: int
    end: int


def uses(text):
    found = []
    for item in items(text):
        texts = text_of(item)
        if texts[0] == "use" and "{" in texts:
            last = item[-2] if texts[-2] != "," else item[-3]
            names = texts.index("{")
            found.append(Use("".join(texts[1:names]).rstrip("."), frozenset(texts[names + 1:]), last.end, item[-1].end))
    return found


def homes(root, paths):
    """{name: (crate, module)} of what the definitions define, where only one file does."""
    found = {}
    for path in paths:
        crate, stem = path.split("/")[1], os.path.basename(path)[:-len(".antt")]
        for name in defined(read(root, path)):
            found[name] = None if name in found else (crate, stem)
    for (crate, module), variants in VARIANTS.items():
        found.update({name: (crate, f"declared.{module}.TheVariants") for name in variants.split()})
    return {name: home for name, home in found.items() if home}


def defined(text):
    """The names that a file defines: of clauses, and the constructors of its data types."""
    names = set()
    for item in items(text):
        texts = text_of(item)
        names.update(name for name, _ in bodies(item) if "." not in name)
        if "data" in texts[:2]:
            names.update(texts[texts.index("where") + 1:-2])
    return names


def module_of(name, known):
    """The module that a name is imported from, or None."""
    for module, names in KIT.items():
        if name in names.split():
            return module
    if name not in known:
        return None
    home, module = known[name]
    return f"Rattle.{home}.specs.{module}"


def with_use(text, name, module, lines):
    """The file with a name in the `use` line of its module, or in a new line behind the last."""
    same = [line.last for line in lines if line.module == module]
    if same:
        return text[:same[0]] + f", {name}" + text[same[0]:]
    cut = text.index("\n", max(line.end for line in lines)) + 1
    return text[:cut] + f"use {module}.{{{name}}}\n" + text[cut:]


# ---------------------------------------------------------------- mutants of the definitions

def read(root, path):
    with open(os.path.join(root, path), encoding="utf-8") as file:
        return file.read()


def sources(root, folder):
    """The files of every crate's src/ or specs/, sorted."""
    found = []
    for here, _, files in os.walk(os.path.join(root, "crates")):
        inside = os.path.relpath(here, root).split(os.sep)
        if inside[2:3] == [folder]:
            found += ["/".join(inside + [f]) for f in files if f.endswith((".rt", ".antt"))]
    return sorted(found)


class Definitions:
    """One file of definitions, and what its mutants need of the others."""

    def __init__(self, path, text, known_types, known_names):
        self.path, self.text = path, text
        self.crate, self.stem = path.split("/")[1], os.path.basename(path)[:-len(".antt")]
        self.names, self.known_names, self.lines = defined(text), known_names, uses(text)
        self.chains = chains_in(set(text_of(tokens_of(ANTT, text, "--"))), known_types)

    def without_fields(self, item):
        """The edits by which a record says less: each field of one that has several is left out, whole."""
        texts, made = text_of(item), []
        starts = [i for i, text in enumerate(texts) if text == "pub" and i > texts.index("where")] if "where" in texts else []
        if "record" not in texts[:2] or len(starts) < 2:
            return []
        for i, end in zip(starts, starts[1:] + [len(item)]):
            text = self.text[:item[i].start] + self.text[item[end - 1].end:]
            name = f"{texts[texts.index('record') + 1]}.{texts[i + 1]}"
            made.append(mutant(self.path, name, DROPPED, item[i], 1, "", self.text, text))
        return made

    def edited(self, token, new, bound):
        """The file with an edit, and with `use` of what it needs; None where a name is not to be had."""
        text = self.text[:token.start] + new + self.text[token.end:]
        for name in symbols(new):
            if name in bound or name in self.names or any(name in line.names for line in self.lines):
                continue
            module = module_of(name, self.known_names)
            if module is None:
                return None
            text = with_use(text, name, module, self.lines)
        return text

    def mutants(self):
        seen, made = Counter(), []
        for item in items(self.text):
            made += self.without_fields(item)
            bound = set(text_of(item))
            for name, tokens in bodies(item):
                texts = text_of(tokens)
                for i, token in enumerate(tokens):
                    seen[name, token.text] += 1
                    for kind, new in replacements(texts, i, self.stem, self.chains):
                        text = self.edited(token, new, bound)
                        if text is not None:
                            made.append(mutant(self.path, name, kind, token, seen[name, token.text], new, self.text, text))
        return made


def mutant(path, name, kind, token, nth, new, before, after):
    return Mutant(path, name, kind, token.text, nth, new, before.count("\n", 0, token.start) + 1, after)


def definition_mutants(root, paths):
    """The mutants of the files of definitions, file by file."""
    known_types, known_names = types(root), homes(root, paths)
    return [m for path in paths for m in Definitions(path, read(root, path), known_types, known_names).mutants()]


# ---------------------------------------------------------------- mutants of the code

CODE_EXCHANGED = {
    "<": "<=", "<=": "<", ">": ">=", ">=": ">", "==": "!=", "!=": "==", "+": "-", "-": "+", "+=": "-=", "-=": "+=", "/": "%", "%": "/",
    "&&": "||", "||": "&&", "true": "false", "false": "true",
}
CODE_NAMES = [("lower", "upper"), ("low", "high"), ("floor", "ceil"), ("first", "last"), ("least", "most"), ("up", "down")]


def code_bodies(text):
    """(name, tokens) of each function's body and each constant's value: no types, no contracts, no attributes."""
    tokens = tokens_of(CODE, text, "//")
    texts, found, i = text_of(tokens), [], 0
    while i < len(texts):
        if texts[i] == "const":
            end = texts.index(";", texts.index("=", i))
            found.append((texts[i + 1], tokens[texts.index("=", i) + 1:end]))
            i = end
        elif texts[i] == "fn":
            start = body_start(texts, i)
            end = closing(texts, start)
            found.append((texts[i + 1], tokens[start + 1:end]))
            i = end
        i += 1
    return found


def closing(texts, i):
    """Where the brace that opens at i closes."""
    depth = 0
    while True:
        depth += (texts[i] == "{") - (texts[i] == "}")
        if depth == 0:
            return i
        i += 1


def body_start(texts, i):
    """Where the body of the function at i opens: behind its contract, whose clauses have braces of their own."""
    while texts[i] != "{":
        if texts[i] in ("requires", "ensures", "ghost"):
            i = closing(texts, texts.index("{", i))
        i += 1
    return i


def code_replacements(texts, i, chains, names):
    """(kind, text) of all that takes the place of token i of a body. A name is exchanged for one that the file has too."""
    token, before, after = texts[i], texts[i - 1] if i else "", texts[i + 1] if i + 1 < len(texts) else ""
    if re.fullmatch(r"\d[\d_]*", token):
        return numbers(token.replace("_", ""))
    if before == "." and after != "(":
        return list(dict.fromkeys(("field", neighbour(chain, token)) for chain in chains if token in chain))
    found = [("operator", CODE_EXCHANGED[token])] if token in CODE_EXCHANGED else []
    if before != "let" and after != ":":
        found += [("end", other) for other in other_ends(token, names)]
    return found


def other_ends(token, names):
    """A name with its other end: lower_result for upper_result, where the file has both."""
    parts, found = token.split("_"), []
    for pair in CODE_NAMES:
        for old, new in (pair, pair[::-1]):
            other = "_".join(new if part == old else part for part in parts)
            if other != token and other in names:
                found.append(other)
    return found


def of_code(path, text, known_types):
    """The mutants of one file of code."""
    seen, made = Counter(), []
    names = set(text_of(tokens_of(CODE, text, "//")))
    chains = chains_in(names, known_types)
    for name, tokens in code_bodies(text):
        texts = text_of(tokens)
        for i, token in enumerate(tokens):
            seen[name, token.text] += 1
            for kind, new in code_replacements(texts, i, chains, names):
                edited = text[:token.start] + new + text[token.end:]
                made.append(mutant(path, name, kind, token, seen[name, token.text], new, text, edited))
    return made


def code_mutants(root, crates):
    """The mutants of the code of some crates, file by file."""
    known_types = types(root)
    paths = [path for path in sources(root, "src") if path.split("/")[1] in crates]
    return [m for path in paths for m in of_code(path, read(root, path), known_types)]
