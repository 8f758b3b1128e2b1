"""The must-fail edits as texts: the changes of an edit, what its comment names, and what a crate has of that."""

import glob
import os
import re

from tests import ROOT

DEFINED = ("model", "method", "savingmodel", "rollingmodel", "searchmodel", "monthsmodel")  # the crates of definitions, without a function
EDITS = sorted(glob.glob(os.path.join(ROOT, "crates", "*", "must-fail", "*.edit")))


def read_text(path):
    with open(path, encoding="utf-8") as file:
        return file.read()


def parts(text):
    """The comment of an edit, and its triples (file, old, new)."""
    comment, triples, file, old = [], [], None, None
    for line in text.splitlines():
        if line.startswith("file: "):
            file = line.removeprefix("file: ")
        elif line.startswith("old: "):
            old = line.removeprefix("old: ")
        elif line.startswith("new:"):
            triples.append((file, old, line.removeprefix("new:").removeprefix(" ")))
        elif file is None:
            comment.append(line.removeprefix("# "))
    return " ".join(comment), triples


def edited(path):
    """The texts of the files that an edit changes, as it makes them, each by its path in the crate."""
    texts = {}
    for file, old, new in parts(read_text(path))[1]:
        text = texts.get(file) or read_text(os.path.join(os.path.dirname(path), "..", file))
        if text.count(old) != 1:
            raise ValueError(f"{path}: the text is in {file} {text.count(old)} times, and not once: {old}")
        texts[file] = text.replace(old, new)
    return texts


def refusing(comment):
    """The names behind 'Refused by' in a comment."""
    found = re.search(r"Refused by (.*)\.$", comment.strip())
    return re.split(r", | and ", found.group(1)) if found else []


def facts(comment):
    """The facts that a comment names, each with its function: `loop-i-preserved` and `returns` of rates::add_day are two of them."""
    found = re.findall(r"((?:`[\w-]+`(?:, | and )?)+) of ([A-Za-z_0-9]+(?:::[A-Za-z_0-9]+)*)", comment)
    return [(fact, function) for names, function in found for fact in re.findall(r"`([\w-]+)`", names)]


def place(path):
    """The crate and the name of an edit, by its path."""
    crate, _, name = os.path.relpath(path, os.path.join(ROOT, "crates")).removesuffix(".edit").split(os.sep)
    return crate, name


# A constant of a trait is a function to the prover, as FourBytesRateForm::WIDTH.
HEAD = re.compile(r"^ *(?:pub(?:\([a-z]+\))? )?(?:(?:extern \"C\" )?fn |const )(\w+)|^impl(?:<[^{]*?>)? (\w+)(?:<([^{]*?)>)?(?: for (\(.*\)|\w+)[^{]*)? \{|^}", re.M)


def kind_of(trait, arguments, kind):
    """The name of an impl of a trait, as the prover says it: the type, the trait and the trait's arguments, without lifetimes. That of pairs
    begins with Tuple2."""
    if kind.startswith("("):
        kind = f"Tuple{kind.count(',') + 1}"
    return kind + trait + "".join(word[0].upper() + word[1:] for word in re.findall(r"(?<!')\b\w+", arguments or ""))


def home_of(kind, source, module):
    """The module of an inherent impl: that of its type, which may be another one of the crate."""
    used = re.search(rf"^use (?:crate|super)::(\w+(?:::\w+)*)::(?:{kind}|\{{[^}}]*\b{kind}\b[^}}]*\}});", source, re.M)
    return used[1].split("::") if used else module


def functions_of(source, module):
    """The functions of a source text, each by the line where it or its first attribute begins, and its path within the crate."""
    module = [] if module in ("lib", "main") else module.split("/")
    path, lines = module, source.splitlines()
    for head in HEAD.finditer(source):
        name, first, arguments, second = head.groups()
        if name is not None:
            begins = source.count("\n", 0, head.start(1)) + 1
            while begins > 1 and lines[begins - 2].lstrip().startswith("#["):
                begins -= 1
            yield begins, "::".join([*path, name])
        elif first is None:
            path = module
        elif second is None:
            path = [*home_of(first, source, module), first]
        else:
            path = [*module, kind_of(first, arguments, second)]


def functions(crate):
    """The functions of a crate, each by its path within the crate."""
    folder = os.path.join(ROOT, "crates", crate, "src")
    return {name for path in glob.glob(os.path.join(folder, "**", "*.rt"), recursive=True)
            for _, name in functions_of(read_text(path), os.path.relpath(path, folder).removesuffix(".rt"))}


def statements(crate):
    """The names that the proofs of a crate declare, also behind common parameters; no fields of records."""
    return {name for path in glob.glob(os.path.join(ROOT, "crates", crate, "proofs", "**", "*.antt"), recursive=True)
            for part in re.split(r"^(?=\S)", read_text(path), flags=re.M) if not re.match(r"(?:pub )?(?:record|data)\b", part)
            for name in re.findall(r"^ *(?:pub )?([^\s()]+) :", part, re.M)}
