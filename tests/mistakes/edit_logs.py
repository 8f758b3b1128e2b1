"""Whether each must-fail edit is refused at the facts that its comment names, by all that the prover says of it.

Command line: python3 -m tests.mistakes.edit_logs [--kept] [--said FILE] [NAME | NAME/EDIT ..]

Every edit, unless crates or edits are named.

`rt ci` and `rt must-fail` tell only the first line of a refusal. With --said, where FILE has what one of them said, that line is enough for
an edit of which it shows all that the comment names. Any other edit is put into a copy of the crates, and what `rt check` says there is
kept in target/must-fail/NAME/EDIT.log: of the functions that its comment names, or of the whole crate where it names a statement. With
--kept, the logs that are there are looked at as they are. The copies stand among the temporary files: in the checkout `rt ci` would refuse
them, as sources that no check reads. Those of a call that was killed are removed by the next.

An edit that is refused for another reason, because a proof no longer fits it, guards nothing. Ends with 1 if a log is missing, or if a
statement or a fact of a function that is named has no error in it.
"""

import glob
import os
import re
import shutil
import subprocess
import sys
import tempfile
from concurrent.futures import ThreadPoolExecutor
from contextlib import contextmanager

from tests import ROOT
from tests.mistakes.edits import EDITS, edited, facts, functions_of, parts, place, read_text, refusing

LOGS = os.path.join(ROOT, "target", "must-fail")
COPIES = "ginghamowl-edits-"
PART = 7  # this many edits share a copy of the crates
NOTE = re.compile(r"note: \S+:\d+:\d+: (?:it is not proved that .*?|`search` found no proof) \(`([^`]+)`\)")
TOLD = re.compile(r"fn (\S+): (.*)")


# ---------------------------------------------------------------- making the logs

def lines_of(crates):
    """The lines of crates.txt for crates and those below them, by their names."""
    lines = [line.partition("#")[0] for line in read_text(os.path.join(ROOT, "crates.txt")).splitlines()]
    lines = {line.split()[0].rstrip(":"): line for line in lines if line.strip()}
    taken, left = set(), set(crates)
    while left:
        taken |= left
        left = {word for name in left for word in lines[name].partition(":")[2].split() if word in lines} - taken
    return {name: line for name, line in lines.items() if name in taken}


@contextmanager
def copy_of(*crates):
    """A copy of crates and of those below them, without what was proved of them: rt begins with what a check of another copy has proved."""
    with tempfile.TemporaryDirectory(prefix=f"{COPIES}{os.getpid()}-") as tree:
        lines = lines_of(crates)
        write(tree, {"crates.txt": "\n".join(lines.values()) + "\n"})
        for name in lines:
            source = os.path.join(ROOT, "crates", name)
            shutil.copytree(source, os.path.join(tree, "crates", name),
                            ignore=lambda folder, names, source=source: ("must-fail", "out") if folder == source else ())
        yield tree


def sweep():
    """Removes the copies of calls that were killed."""
    for copies in glob.glob(os.path.join(tempfile.gettempdir(), f"{COPIES}*-*")):
        if not os.path.exists(f"/proc/{os.path.basename(copies).removeprefix(COPIES).partition('-')[0]}"):
            shutil.rmtree(copies, ignore_errors=True)


def run_rt(folder, *words):
    """(exit status, what was said) of a call of rt."""
    ran = subprocess.run(["rt", *words], cwd=folder, stdin=subprocess.DEVNULL, stdout=subprocess.PIPE, stderr=subprocess.STDOUT,
                         encoding="utf-8", errors="replace")
    return ran.returncode, ran.stdout


def write(folder, texts):
    for file, text in texts.items():
        with open(os.path.join(folder, file), "w", encoding="utf-8") as out:
            out.write(text)


def said_by_check(folder, comment):
    """What a check says of all that a comment names: of its functions and what they call, in half the time, where it names no statement."""
    functions = sorted({function for _, function in facts(comment)})
    if functions and not refusing(comment):
        status, said = run_rt(folder, "check", *(word for function in functions for word in ("--only", function)))
        if status != 2:  # with which rt says that it judged nothing
            return said
    return run_rt(folder, "check")[1]


def make_log(tree, path):
    """Checks a crate of the tree with an edit, keeps what was said, and puts the crate's texts back."""
    crate, name = place(path)
    folder, texts = os.path.join(tree, "crates", crate), edited(path)
    originals = {file: read_text(os.path.join(folder, file)) for file in texts}
    write(folder, texts)
    said = said_by_check(folder, parts(read_text(path))[0])
    write(folder, originals)
    os.makedirs(os.path.join(LOGS, crate), exist_ok=True)
    write(os.path.join(LOGS, crate), {f"{name}.log": said})


def make_logs_of(paths):
    """The logs of edits of one crate, in a copy of what a check of it reads."""
    with copy_of(place(paths[0])[0]) as tree:
        for path in paths:
            make_log(tree, path)


def make_logs(paths):
    """The logs of all, a few edits of one crate at a time, on as many cores as there are. One copy of all their crates is checked first, as
    they are: of a crate that is not proved so, an edit shows nothing. It stays to the end, so that the other checks begin with its work."""
    crates = sorted({place(path)[0] for path in paths})
    of_crates = [[path for path in paths if place(path)[0] == crate] for crate in crates]
    parts = [of_crate[at:at + PART] for of_crate in of_crates for at in range(0, len(of_crate), PART)]
    with copy_of(*crates) as whole, ThreadPoolExecutor(os.cpu_count()) as pool:
        status, said = run_rt(whole, "all", "check", "--jobs", str(os.cpu_count()))
        if status:
            sys.exit(f"edit_logs: not proved as they are, so edits show nothing: {' '.join(crates)}\n{said[-2000:]}")
        list(pool.map(make_logs_of, parts))


# ---------------------------------------------------------------- reading them

def errors(log):
    """The declarations that a log has an error of, each with the file that it is in."""
    return set(re.findall(r"^(\S+?):\d+:\d+: error: `([^`]+)`", log, re.M))


def left(log, crate, function):
    """The goals of a function that the search left: those of the notes above the function's line, and those that the line names."""
    found = set()
    for line in log.splitlines():
        if note := NOTE.match(line):
            found.add(note[1])
        elif told := TOLD.match(line):
            if told[1] == f"{crate}::{function}":
                return found | set(re.findall(r"`([^`]+)`", told[2].partition("did not prove")[2]))
            found = set()
    return set()


def silent_fact(crate, fact, function, log):
    """Whether a log has no error of a fact of a function: in its proof files, or among what the search left."""
    path = function.split("::")
    folders = ("/".join(["proofs", *path]), "/".join(["proofs", *path[:-1], "+" + path[-1]]))
    files = tuple(f"{folder}/{file}.antt" for folder in folders for file in ("Answers", "Invariants", "Proof"))
    if any(name == fact and file.endswith(files) for file, name in errors(log)):
        return False
    return fact not in left(log, crate, function)


def silent(crate, edit, log):
    """The statements and facts that the comment of an edit names, and of which its log has no error."""
    comment = parts(edit)[0]
    found = {name for _, name in errors(log)}
    return [name for name in refusing(comment) if name not in found] \
        + [f"{fact} of {function}" for fact, function in facts(comment) if silent_fact(crate, fact, function, log)]


REFUSED = re.compile(r"rt: must-fail (\S+)\.edit: refused, as it must be: (.*)")
PLACED = re.compile(r"note: src/(\S+)\.rt:(\d+):\d+: ")


def said_of(text):
    """The first line of each refusal, by the edit, of what `rt ci` or `rt must-fail` said."""
    return {edit: line for edit, line in REFUSED.findall(text)}


def function_at(source, module, line):
    """The function of a source text that a line is in, by its path within the crate."""
    return [name for begins, name in functions_of(source, module) if begins <= line][-1]


def as_log(path, line):
    """The first line of a refusal as a log of its own: a note on a line of the source is one on the function there."""
    noted = PLACED.match(line)
    if not noted:
        return line
    source = edited(path).get(f"src/{noted[1]}.rt") or read_text(os.path.join(os.path.dirname(path), "..", "src", f"{noted[1]}.rt"))
    return f"{line}\nfn {place(path)[0]}::{function_at(source, noted[1], int(noted[2]))}: no proof"


def shown(path, said):
    """Whether the first line of a refusal shows all that the comment of the edit names."""
    line = said.get("/".join(place(path)))
    return line is not None and not silent(place(path)[0], read_text(path), as_log(path, line))


def chosen(names):
    """The edits that are named, each by its crate or by its own name; all of them, if none is."""
    return [path for path in EDITS if not names or {place(path)[0], "/".join(place(path))} & set(names)]


def main(words):
    said = {}
    if "--said" in words:
        at = words.index("--said")
        said = said_of(read_text(words[at + 1]))
        words = words[:at] + words[at + 2:]
    paths = chosen([word for word in words if word != "--kept"])
    rest = [path for path in paths if not shown(path, said)]
    if "--kept" not in words:
        sweep()
        if rest:
            make_logs(rest)
    wrong = 0
    for path in rest:
        crate, name = place(path)
        log = os.path.join(LOGS, crate, f"{name}.log")
        missing = silent(crate, read_text(path), read_text(log)) if os.path.exists(log) else ["no log"]
        if missing:
            wrong += 1
            print(f"{crate}/{name}: {', '.join(missing)}")
    print(f"{len(paths)} edits, {len(paths) - len(rest)} by their first line, {wrong} not refused as their comments say")
    return 1 if wrong or not paths else 0


if __name__ == "__main__":
    sys.exit(main(sys.argv[1:]))
