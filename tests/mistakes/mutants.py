"""Looks for holes: puts one-token wrong edits of the definitions that a reader must believe, and records with a field less, to the prover, with
no proof touched.

    python3 -m tests.mistakes.mutants [WORDS]

    no words                all of them, in an hour or two; ends with 1 if one survives that is not listed
    --list                  prints them and runs nothing
    --file Exact,Curve      those of some files (model/Exact, where two crates have one of that name)
    --kind up,order         those of some kinds of mistakes
    --since COMMIT          those at lines that a commit does not have
    --part 2/5              every fifth, from the second on
    --minutes 30 --seed 7   in an order drawn by a seed, for half an hour; says what was not tried
    --only KEY              one of them, with all that the prover says
    --code [COUNT]          edits of the code instead, COUNT (100) drawn by the seed
    --list-same             the survivors that mean the same, as rows of a table
    --stated                all of them, but only computed statements and plain uses of promises may refuse one

--results FILE writes each verdict to FILE as it comes. --resume FILE skips what has a verdict there: a refusal while the edited file's
contents are the same, and any other verdict only while every file under crates/ is. --warm DIR keeps what was proved of the tree as it
is from run to run, which saves some minutes. --jobs J has J provers at a time (2).

Each mutant goes through stages and stops at the first refusal: the crate of the edited file, and then each crate above it in the order
of crates.txt, those that name the edited file first. For the model these are its quick computed statements, the theorems, the statements
that take longer, and then the code. An edit that the prover refuses in a file of definitions is no definition: it is ill-formed, and
counted apart, as is one that the compiler refuses. A mutant that keeps the prover longer than TIMEOUT, or takes all its steps, is
refused by time.

What is proved of the tree as it is serves as a start: all mutants take from a copy of it what they do not change. That can make no
refusal, since what is taken was admitted; and a survivor can be tried anew with --only, which takes nothing from it.

Survivors that mean the same as the original are listed in mutants_same.txt in this folder, each line KEY because REASON.

With --stated the theorems, the promises and the functions are left out, since each of these may refuse an edit only because its proof no
longer fits (stated.py). What survives there no number and no plain use of a promise guards: it is mended by one of these, or listed in
mutants_stated.txt, likewise, with the reason why none is wanted. The stages are then the computed statements of the edited file's crate,
that crate, the quick crates above it together, and each crate that takes long; sixteen mutants of a file are tried in one check, as
copies, and what passes every stage has passed each where nothing was refused.

The programs (ginghamowl, command, report, batch, answers, searches) and their tests (trials) are left out: no host calls them.
"""

import argparse
import copy
import functools
import hashlib
import json
import os
import random
import re
import shutil
import signal
import subprocess
import sys
import tempfile
import threading
import time
from collections import Counter
from dataclasses import asdict, dataclass

from tests import ROOT
from tests.mistakes import mutant_edits, stated
from tests.mistakes.edits import DEFINED
from tests.mistakes.mutant_edits import where

SAME = os.path.join(ROOT, "tests", "mistakes", "mutants_same.txt")
STATED = os.path.join(ROOT, "tests", "mistakes", "mutants_stated.txt")

# The files of definitions that a reader must believe, by crate. Part and Version of `flat` are not here: no token of the one definition of
# the first has a wrong edit, and a script writes the second.
DEFINITIONS = {
    "arith": "Rounding Root Brackets",
    "refusal": "Numbered Promises",
    "model": "Constants Numbers Case Limits Fields Layout Refusals Sizes Promises",
    "method": "Fraction Brackets Curve Exact Rounded Margins Containment EquityClasses Buffers Window Listing FourBytes Bonds Sizes TwelveFiles Promises",
    "heldcase": "Held",
    "savingmodel": "Saving Forms Promises",
    "rollingmodel": "Rolling Promises",
    "searchmodel": "Bisection Promises",
    "monthsmodel": "Months Promises",
    "reader": "Answers",
    "listing": "Holds Shown",
    "flat": "Flat",
}
PROGRAMS = {"ginghamowl", "command", "report", "batch", "answers", "searches", "trials"}
# Crates with no function, by what they hold: computed statements beside definitions, theorems, and statements that take long to compute.
# A refusal by one of them is counted apart.
APART = {"definitions": DEFINED, "theory": ("theory",),
         "long": ("twelvecases", "pinned", "refusals", "rollingcases", "monthscases", "fourbytecases", "accepted")}
LIBRARIES = ("core", "std")  # of the kit, for every crate; crates.txt names others
TIMEOUT = 180  # seconds for one stage

ILL_FORMED, REFUSED, TIME, SURVIVES = "ill-formed", "refused", "time", "survives"


class Stopped(Exception):
    """The time is up, or somebody interrupted: the mutant at hand has no verdict."""


@dataclass
class Outcome:
    verdict: str
    crate: str = ""
    first: str = ""
    seconds: float = 0.0


# ---------------------------------------------------------------- the crates

def crates(root):
    """{crate: the crates it depends on} of the libraries of crates.txt, in its order."""
    found = {}
    with open(os.path.join(root, "crates.txt"), encoding="utf-8") as file:
        for line in file:
            words, colon, rest = line.split("#")[0].partition(":")
            if colon and (name := words.split()[0]) not in PROGRAMS:
                found[name] = rest.split()
    return found


def reached(crate, deps):
    """What a crate depends on, directly or not, each behind what it depends on itself. The kit's libraries are left out."""
    found = []
    for dep in deps[crate]:
        if dep in deps:
            found += [d for d in reached(dep, deps) + [dep] if d not in found]
    return found


def of_kit(crate, deps):
    """The kit's libraries that a crate and what it depends on name, behind those of every crate."""
    return [*LIBRARIES, *sorted({dep for name in [crate, *reached(crate, deps)] for dep in deps[name] if dep not in deps})]


def naming(path, texts):
    """The crates whose own files name the module of a file: what refuses an edit of it is nearly always among them."""
    crate, folder, rest = path.split("/", 1)[1].split("/", 2)
    stem = os.path.splitext(rest)[0]
    module = rf"Rattle\.{crate}\.specs\.{stem}\b" if folder == "specs" else rf"\b{crate}::{stem}\b"
    return {name for name, text in texts.items() if re.search(module, text)}


def stages(crate, deps, first=()):
    """The crate of each stage of a mutant of a crate: its own, then those above it, some of them first."""
    return [crate] + sorted((name for name in deps if crate in reached(name, deps)), key=lambda name: name not in first)


def crate_texts(root):
    """{crate: all its definitions, proofs and code as one text}."""
    found = {}
    for folder in ("src", "specs", "proofs"):
        for path in mutant_edits.sources(root, folder):
            crate = path.split("/")[1]
            found[crate] = found.get(crate, "") + mutant_edits.read(root, path)
    return found


def definition_paths(root):
    paths = [f"crates/{crate}/specs/{stem}.antt" for crate, stems in DEFINITIONS.items() for stem in stems.split()]
    missing = [path for path in paths if not os.path.exists(os.path.join(root, path))]
    if missing:
        sys.exit(f"mutants: the table of definitions names files that are not there: {', '.join(missing)}")
    return paths


def tree_sum(root):
    """One sum of every file that a proof rests on."""
    total = hashlib.sha256()
    for crate, text in sorted(crate_texts(root).items()):
        total.update(f"{crate}\n{text}".encode())
    return total.hexdigest()[:16]


# ---------------------------------------------------------------- the prover

class Prover:
    """Runs `rattle check` as rt does, but with the crates below as sources: then the incremental folder serves them too."""

    def __init__(self, deps, deadline=None):
        rt = shutil.which("rt") or sys.exit("mutants: no rt on the path")
        kit = os.environ.get("RATTLE_HOME") or os.path.dirname(os.path.dirname(os.path.realpath(rt)))
        self.deps, self.deadline, self.stop = deps, deadline, threading.Event()
        self.rattle, self.rlibs = os.path.join(kit, "bin", "rattle"), os.path.join(kit, "rlibs")
        self.logic = ["--antt-project", f"{kit}/rattle/logic/antt-project.json", "--logic-built", f"{kit}/logic_built"]

    def over(self, deps):
        """The same prover over other crates."""
        other = copy.copy(self)
        other.deps = deps
        return other

    def words(self, tree, crate, incremental):
        libraries = [word for name in of_kit(crate, self.deps) for word in ("--extern", f"{name}={self.rlibs}/{name}.rlib")]
        libraries += ["-L", f"dependency={self.rlibs}"]
        for dep in reached(crate, self.deps):
            used = ",".join([*LIBRARIES, *self.deps[dep]])
            libraries += ["--lib", f"{dep}:{used}={tree}/crates/{dep}/src/lib.rt"]
        return [self.rattle, "check", "--crate-name", crate, f"{tree}/crates/{crate}/src/lib.rt", *libraries, *self.logic, "--jobs", "1",
                "--links", f"{crate}=", "--incremental", incremental]

    def check(self, tree, crate, incremental, seconds=TIMEOUT):
        """(exit status, or None where the time was too short; what was said)."""
        with tempfile.TemporaryFile() as said:
            process = subprocess.Popen(self.words(tree, crate, incremental), stdout=said, stderr=subprocess.STDOUT, start_new_session=True)
            try:
                status = self.wait(process, time.monotonic() + seconds)
            finally:
                if process.poll() is None:
                    os.killpg(process.pid, signal.SIGKILL)
                    process.wait()
            said.seek(0)
            return status, said.read().decode("utf-8", "replace")

    def wait(self, process, end):
        while time.monotonic() < end:
            if self.stop.is_set() or (self.deadline and time.monotonic() > self.deadline):
                raise Stopped
            try:
                return process.wait(timeout=0.5)
            except subprocess.TimeoutExpired:
                pass
        return None


ERROR = re.compile(r"^(\S+?\.(?:antt|rt))(?::(\d+))?(?::\d+)?: error(?:\[[\w-]+\])?: (?:`([^`]+)`)?", re.M)
FUNCTION = re.compile(r"^(fn \S+): (?:not proved|no proof|could not tell)", re.M)


def judged(status, said, tree, path, crate):
    """The outcome of one stage; None where it passes."""
    if status == 0:
        return None
    errors = [(os.path.relpath(file, tree), line, name) for file, line, name in ERROR.findall(said)]
    first = FUNCTION.search(said).group(1) if FUNCTION.search(said) else ""
    if errors:
        file, line, name = errors[0]
        first = f"{file}:{line} {name}".strip()
    if status is None or status == 3:
        return Outcome(TIME, crate, first or "no verdict")
    if status != 1:
        raise RuntimeError(f"the prover failed on {crate} (status {status}): {said[-500:]}")
    definitions = os.path.dirname(path) + "/"
    no_definition = definitions.endswith("/specs/") and any(file.startswith(definitions) for file, _, _ in errors)
    if no_definition or not re.search(r"^logic=not-proved", said, re.M):
        return Outcome(ILL_FORMED, crate, first)
    return Outcome(REFUSED, crate, first)


# ---------------------------------------------------------------- trying a mutant

def copied(folder, to):
    """A copy of a folder of checked modules that shares its files: the prover replaces a file, and never writes into one."""
    def link(source, target):
        try:
            os.link(source, target)
        except OSError:  # another file system
            shutil.copy2(source, target)
    shutil.copytree(folder, to, copy_function=link)


class Worker:
    """A copy of the tree, and a folder of checked modules, for one mutant after the other."""

    def __init__(self, root, folder, warm, prover):
        self.folder, self.warm, self.prover = folder, warm, prover
        self.tree = os.path.join(folder, "tree")
        shutil.copytree(os.path.join(root, "crates"), os.path.join(self.tree, "crates"), ignore=shutil.ignore_patterns("must-fail"))
        self.texts = crate_texts(root)

    def try_group(self, mutants, keep):
        for mutant in mutants:
            keep(mutant, self.try_one(mutant))

    def try_one(self, mutant, show=None):
        """The mutant's outcome; its file is as it was afterwards."""
        incremental, began = os.path.join(self.folder, "checked"), time.monotonic()
        shutil.rmtree(incremental, ignore_errors=True)
        copied(self.warm, incremental) if self.warm else os.mkdir(incremental)
        original = mutant_edits.read(self.tree, mutant.path)
        try:
            self.put(mutant.path, mutant.text)
            outcome = self.through_stages(mutant, incremental, show)
        finally:
            self.put(mutant.path, original)
        outcome.seconds = round(time.monotonic() - began, 1)
        return outcome

    def put(self, path, text):
        with open(os.path.join(self.tree, path), "w", encoding="utf-8") as file:
            file.write(text)

    def through_stages(self, mutant, incremental, show):
        for crate in stages(mutant.path.split("/")[1], self.prover.deps, naming(mutant.path, self.texts)):
            status, said = self.prover.check(self.tree, crate, incremental)
            if show:
                show(f"---- {crate}: status {status}\n{said}")
            outcome = judged(status, said, self.tree, mutant.path, crate)
            if outcome:
                return outcome
        return Outcome(SURVIVES)


@dataclass
class Part:
    """A stage of --stated: some crates, or only their computed statements."""
    crates: set
    computed: bool = False


class StatedWorker:
    """A tree of definitions and statements alone, in which many mutants are tried in one check, each as copies of what it changes."""

    def __init__(self, root, folder, warm, prover):
        self.tree, self.prover, self.graph = os.path.join(folder, "tree"), prover, stated.Graph(root)
        shutil.copytree(root, self.tree)
        stated.put(self.tree, {"crates/all/src/lib.rt": stated.ALONE})
        self.warm, self.incremental = warm, os.path.join(folder, "checked")
        self.texts = crate_texts(root)

    def try_group(self, mutants, keep):
        """Mutants of one file, stage by stage. What no stage refuses goes through them once more, where nothing is refused beside it."""
        left, parts = mutants, self.parts_of(mutants[0].path)
        for stage, of in ((self.refused_once, parts), (self.refused, [part for part in parts if not part.computed])):
            for part in of:
                for batch in batches(left):
                    refused = stage(batch, part)
                    for mutant in batch:
                        if mutant.key in refused:
                            keep(mutant, refused[mutant.key])
                            left = [m for m in left if m is not mutant]
        for mutant in left:
            keep(mutant, Outcome(SURVIVES))

    def parts_of(self, path):
        """The stages of a mutant of a file: the computed statements of its own crate, that crate, then all crates that are quick together,
        since each check works out anew what the crates below have, and then each that takes long."""
        own = path.split("/")[1]
        above = [crate for crate in stages(own, self.prover.deps, naming(path, self.texts))[1:] if self.states(path, crate)]
        quick = {crate for crate in above if crate not in APART["long"]}
        found = [Part({own}, computed=True)] if self.graph.of_stage(path, {own}, computed=True) else []
        return [*found, Part({own}), *([Part(quick)] if quick else []), *(Part({crate}) for crate in APART["long"] if crate in above)]

    def states(self, path, crate):
        """Whether a crate has statements above a file."""
        return any(file.startswith(f"crates/{crate}/proofs/") for file in self.graph.of_stage(path, {crate}))

    def refused_once(self, mutants, part):
        """{key: outcome} of those that a stage refuses, each in the first check that tells. Of the others it says nothing for sure."""
        found, queue = {}, batches(mutants)
        while queue:
            batch = queue.pop(0)
            now = self.check(batch, part)
            if now is None:
                queue += [batch[:len(batch) // 2], batch[len(batch) // 2:]]
            else:
                found |= now
        return found

    def refused(self, mutants, part):
        """{key: outcome} of those that a stage refuses. The others have passed a check in which nothing was refused."""
        found, queue, unsure = {}, batches(mutants), []
        while queue:
            batch = queue.pop(0)
            now = self.check(batch, part)
            if now is None and len(batch) > 1:
                queue += [batch[:len(batch) // 2], batch[len(batch) // 2:]]
            else:
                found |= now or {}
                unsure += [m for m in batch if now and m.key not in now]
            if not queue:
                queue, unsure = batches(unsure), []
        return found

    def check(self, batch, part):
        """{key: outcome} of those that one check of them all refuses; None where it does not tell."""
        texts, began = {}, time.monotonic()
        for number, mutant in enumerate(batch):
            texts |= stated.copies(self.graph, mutant, number, part.crates, part.computed)
        prover = self.prover.over(stated.deps_with_copies(self.prover.deps, texts))
        stated.put(self.tree, texts)
        shutil.rmtree(self.incremental, ignore_errors=True)
        copied(self.warm, self.incremental)
        try:
            status, said = prover.check(self.tree, "all", self.incremental, TIMEOUT + 10 * len(batch) * len(part.crates))
        finally:
            for crate in {path.split("/")[1] for path in texts}:
                shutil.rmtree(os.path.join(self.tree, "crates", crate))
        taken = time.monotonic() - began
        outcomes = {batch[n].key: outcome for n, outcome in told(said, self.tree).items()} if status == 1 else {}
        for outcome in outcomes.values():
            outcome.seconds = round(taken / len(batch), 1)
        print(f"{where(batch[0].path)} in {min(part.crates)}: {len(outcomes)} of {len(batch)} refused (status {status}, {taken:.0f} s)", flush=True)
        if status == 0 or outcomes:
            return outcomes
        if len(batch) > 1:
            return None
        if status in (None, 3):
            return {batch[0].key: Outcome(TIME, min(part.crates), "no verdict")}
        raise RuntimeError(f"the prover failed on {batch[0].key} (status {status}): {said[-500:]}")


TOGETHER = 16  # this many mutants are tried in one check


def batches(mutants):
    return [mutants[at:at + TOGETHER] for at in range(0, len(mutants), TOGETHER)]


TOLD = re.compile(r"^(\S+?/crates/(\w+)_(\d+)/(\S+?))(?::(\d+))?(?::\d+)?: error(?:\[[\w-]+\])?: (?:`([^`]+)`)?(.*)", re.M)


def told(said, tree):
    """{number: outcome} of the copies that a check refuses. The first error that is no consequence of another is named; that of a computed
    statement before that of a plain use. Definitions that no longer have a type are no definitions, also those above the edited ones."""
    errors = {}
    for file, crate, number, inside, line, name, rest in TOLD.findall(said):
        if file.startswith(tree):
            follows, plain = "was not admitted" in rest, stated.plain(inside)
            errors.setdefault(int(number), []).append((follows, plain, crate, inside, f"crates/{crate}/{inside}:{line} {name}".strip()))
    found = {}
    for number, each in errors.items():
        follows, plain, crate, inside, first = min(each, key=lambda error: error[:2])
        formed = not any(inside.startswith("specs/") for _, _, _, inside, _ in each)
        found[number] = Outcome(REFUSED if formed else ILL_FORMED, crate, first)
    return found


def warmed(tree, folder, prover):
    """Proves the tree as it is into a folder: where that fails, a refusal of a mutant says nothing. False where the time is too short."""
    os.makedirs(folder, exist_ok=True)
    for crate in prover.deps:
        if any(crate in prover.deps[other] for other in prover.deps):
            continue  # a crate above proves it too
        try:
            status, said = prover.check(tree, crate, folder, 3600)
        except Stopped:
            return False
        if status != 0:
            sys.exit(f"mutants: {crate} is not proved as it is (status {status})\n{said[-2000:]}")
    return True


class Run:
    """Tries groups of mutants with several workers at a time, and keeps each outcome."""

    def __init__(self, groups, results, tree):
        self.results, self.tree = results, tree
        self.count, self.queue, self.outcomes, self.lock = sum(map(len, groups)), list(groups), {}, threading.Lock()
        self.busy, self.broken = 0, None

    def work(self, worker):
        try:
            while not self.broken and not worker.prover.stop.is_set():
                group = self.next()
                if group is None:
                    return
                worker.try_group(group, self.keep)
        except Stopped:
            pass
        except Exception as error:  # a prover that fails says nothing of the mutant: the run ends
            self.broken = error
        finally:
            with self.lock:
                self.busy -= 1

    def next(self):
        with self.lock:
            return self.queue.pop(0) if self.queue else None

    def keep(self, mutant, outcome):
        with self.lock:
            self.outcomes[mutant.key] = outcome
            told = f"{outcome.verdict} {outcome.crate} {outcome.first}".rstrip()
            print(f"[{len(self.outcomes)}/{self.count}] {mutant.key}: {told} ({outcome.seconds} s)", flush=True)
            record = {"key": mutant.key, "text": text_sum(mutant), "tree": self.tree, **asdict(outcome)}
            self.results.write(json.dumps(record, ensure_ascii=False) + "\n")
            self.results.flush()

    def all(self, workers):
        self.busy = len(workers)
        for worker in workers:
            threading.Thread(target=self.work, args=(worker,)).start()
        try:
            self.wait()
        except KeyboardInterrupt:
            workers[0].prover.stop.set()
            self.wait()
        if self.broken:
            raise self.broken

    def wait(self):
        """Until no worker works. A thread that is joined counts as ended once the join is interrupted, so none is joined."""
        while self.busy:
            time.sleep(0.1)


# ---------------------------------------------------------------- results of earlier runs

def text_sum(mutant):
    return hashlib.sha256(mutant.text.encode()).hexdigest()[:16]


def resumed(path, mutants, tree):
    """{key: outcome} of the mutants that need no new try."""
    by_key, found = {m.key: m for m in mutants}, {}
    with open(path, encoding="utf-8") as file:
        for record in map(json.loads, file):
            mutant = by_key.get(record["key"])
            if mutant and record["text"] == text_sum(mutant) and (record["tree"] == tree or record["verdict"] in (REFUSED, ILL_FORMED)):
                found[mutant.key] = Outcome(*(record[field] for field in ("verdict", "crate", "first", "seconds")))
    return found


def read_same(path):
    """{key: reason} of the survivors that mean the same."""
    found = {}
    with open(path, encoding="utf-8") as file:
        for line in file:
            if line.strip() and not line.startswith("# "):
                key, because, reason = line.strip().partition(" because ")
                if not because or key in found:
                    sys.exit(f"mutants: {os.path.relpath(path, ROOT)}: no line KEY because REASON, or a second one: {line.strip()}")
                found[key] = reason
    return found


def same_rows(same):
    """Rows of a table in markdown, in which a bar stands for itself only behind a stroke."""
    return [f"| `{key}` | {reason} |".replace("||", "\\|\\|") for key, reason in same.items()]


# ---------------------------------------------------------------- the report

COLUMNS = ["made", "ill-formed", "own crate", *APART, "above", "time", "same", "SURVIVES", "not tried"]


def column(mutant, outcome, same):
    """The column that a mutant is counted in."""
    if outcome is None:
        return "not tried"
    if outcome.verdict == SURVIVES:
        return "same" if mutant.key in same else "SURVIVES"
    if outcome.verdict == REFUSED:
        if outcome.crate == mutant.path.split("/")[1]:
            return "own crate"
        return next((kind for kind, names in APART.items() if outcome.crate in names), "above")
    return outcome.verdict


STATED_COLUMNS = ["made", "ill-formed", "computed", "plain use", "time", "same", "listed", "SURVIVES", "not tried"]


def stated_column(mutant, outcome, same, listed):
    """The column that a mutant is counted in where only computed statements and plain uses may refuse it."""
    if outcome is None:
        return "not tried"
    if outcome.verdict == SURVIVES:
        return "same" if mutant.key in same else "listed" if mutant.key in listed else "SURVIVES"
    if outcome.verdict == REFUSED:
        return "plain use" if stated.plain(outcome.first.split(":")[0]) else "computed"
    return outcome.verdict


def counted(mutants, columns, column_of, row_of):
    """The lines of a table: a row for each file or kind, and one for all."""
    rows = {}
    for mutant in mutants:
        for name in (row_of(mutant), "all"):
            rows.setdefault(name, Counter())["made"] += 1
            rows[name][column_of(mutant)] += 1
    rows["all"] = rows.pop("all")
    width = max(map(len, rows))
    lines = [" ".join([f"{'':{width}}"] + [f"{c:>10}" for c in columns])]
    return lines + [" ".join([f"{name:{width}}"] + [f"{row[c]:>10}" for c in columns]) for name, row in rows.items()]


def table(mutants, outcomes, same):
    """The lines of the table: a row for each file, and one for all."""
    return counted(mutants, COLUMNS, lambda m: column(m, outcomes.get(m.key), same), lambda m: where(m.path))


def stated_tables(mutants, outcomes, same, listed):
    """The lines of both tables of --stated: by file, and by kind."""
    column_of = lambda m: stated_column(m, outcomes.get(m.key), same, listed)
    return [*counted(mutants, STATED_COLUMNS, column_of, lambda m: where(m.path)), "", *counted(mutants, STATED_COLUMNS, column_of, lambda m: m.kind)]


def report(lines, mutants, outcomes, known, every):
    """Prints tables, the survivors and what is wrong in the lists of those that are known; whether all is well."""
    print("\n".join(lines))
    well = True
    for mutant in mutants:
        outcome = outcomes.get(mutant.key)
        survives = outcome and outcome.verdict == SURVIVES
        if survives and mutant.key not in known:
            print(f"SURVIVES {mutant.path}:{mutant.line} {mutant.old} → {mutant.new or mutant_edits.LEFT_OUT}   {mutant.key}")
            well = False
        elif outcome and outcome.verdict == TIME:
            print(f"refused by time {mutant.path}:{mutant.line} {mutant.key}: {outcome.crate} {outcome.first}")
        if outcome and mutant.key in known and not survives:
            print(f"listed, and {outcome.verdict}: {mutant.key}")
    for key in [key for key in known if key not in every]:
        print(f"listed, and no mutant: {key}")
    untried = sum(m.key not in outcomes for m in mutants)
    if untried:
        print(f"{untried} of {len(mutants)} were not tried")
    return well


# ---------------------------------------------------------------- the command

def options(argv):
    parser = argparse.ArgumentParser(description=__doc__, formatter_class=argparse.RawDescriptionHelpFormatter)
    parser.add_argument("--list", action="store_true")
    parser.add_argument("--list-same", action="store_true")
    parser.add_argument("--file", metavar="NAME,..", type=lambda text: text.split(","))
    parser.add_argument("--kind", metavar="KIND,..", type=lambda text: text.split(","))
    parser.add_argument("--since", metavar="COMMIT")
    parser.add_argument("--part", metavar="K/N", type=part)
    parser.add_argument("--only", metavar="KEY")
    which = parser.add_mutually_exclusive_group()
    which.add_argument("--code", metavar="COUNT", type=int, nargs="?", const=100)
    which.add_argument("--stated", action="store_true")
    parser.add_argument("--minutes", metavar="M", type=float)
    parser.add_argument("--seed", type=int)
    parser.add_argument("--jobs", metavar="J", type=int, default=2)
    parser.add_argument("--results", metavar="FILE")
    parser.add_argument("--resume", metavar="FILE")
    parser.add_argument("--warm", metavar="DIR")
    return parser.parse_args(argv)


def part(text):
    k, n = map(int, text.split("/"))
    if not 1 <= k <= n:
        raise ValueError
    return k, n


def all_mutants(args, deps):
    """Every mutant that the command speaks of, before it is told which."""
    if args.code is None:
        return mutant_edits.definition_mutants(ROOT, definition_paths(ROOT))
    return mutant_edits.code_mutants(ROOT, set(deps))


@functools.cache
def lines_since(commit, path):
    """The lines of a file that a commit does not have, or has otherwise."""
    said = subprocess.run(["git", "-C", ROOT, "diff", "--no-color", "-U0", commit, "--", path], capture_output=True, text=True)
    if said.returncode:
        sys.exit(f"mutants: {said.stderr.strip()}")
    hunks = re.findall(r"^@@ \S+ \+(\d+)(?:,(\d+))? @@", said.stdout, re.MULTILINE)
    return {line for first, count in hunks for line in range(int(first), int(first) + int(count or 1))}


def chosen(mutants, args):
    """The mutants that the words of the command name, in the order in which they are tried."""
    if args.only:
        return [m for m in mutants if m.key == args.only] or sys.exit(f"mutants: no mutant has the key {args.only}")
    if args.file:
        mutants = [m for m in mutants if where(m.path) in args.file or where(m.path).rpartition("/")[2] in args.file]
    if args.kind:
        mutants = [m for m in mutants if m.kind in args.kind]
    if args.since:
        mutants = [m for m in mutants if m.line in lines_since(args.since, m.path)]
    if args.code is not None:
        mutants = random.Random(args.seed or 0).sample(mutants, min(args.code, len(mutants)))
    elif args.seed is not None:
        mutants = random.Random(args.seed).sample(mutants, len(mutants))
    if args.part:
        k, n = args.part
        mutants = mutants[k - 1::n]
    return mutants


def tried(mutants, args, deps, work):
    """{key: outcome}: the prover's, and those of an earlier run."""
    root = os.path.join(work, "stated") if args.stated else ROOT
    if args.stated:
        deps = stated_deps(ROOT, root, deps)
    tree = tree_sum(root)
    outcomes = resumed(args.resume, mutants, tree) if args.resume else {}
    left = [m for m in mutants if m.key not in outcomes]
    prover = Prover(deps, time.monotonic() + 60 * args.minutes if args.minutes else None)
    warm = None if args.only and not args.stated else args.warm or os.path.join(work, "warm")
    groups = by_file(left) if args.stated else [[m] for m in left]
    kind = StatedWorker if args.stated else Worker
    workers = [kind(root, os.path.join(work, str(i)), warm, prover) for i in range(min(args.jobs, len(groups)))]
    if args.only and not args.stated:
        return {**outcomes, **{m.key: workers[0].try_one(m, print) for m in left}}
    with open(args.results or os.devnull, "a", encoding="utf-8") as results:
        run = Run(groups, results, tree)
        whole = prover.over({**deps, "all": list(deps)}) if args.stated else prover
        if workers and warmed(workers[0].tree, warm, whole):
            run.all(workers)
    return {**outcomes, **run.outcomes}


def by_file(mutants):
    """The mutants in groups, those of a file together."""
    groups = {}
    for mutant in mutants:
        groups.setdefault(mutant.path, []).append(mutant)
    return list(groups.values())


def stated_deps(root, folder, deps):
    """The tree for --stated, made in a folder; {crate: what it depends on there}."""
    whole = [*DEFINED, *APART["long"]]
    return stated.stated_tree(root, folder, whole, [crate for crate in DEFINITIONS if crate not in whole], deps)


def main(argv):
    args, deps = options(argv), crates(ROOT)
    same = read_same(SAME)
    if args.list_same:
        print("\n".join(same_rows(same)))
        return 0
    every = all_mutants(args, deps)
    mutants = chosen(every, args)
    if args.list:
        for mutant in mutants:
            print(f"{mutant.path}:{mutant.line} {mutant.kind} {mutant.key}")
        return 0
    with tempfile.TemporaryDirectory(prefix="mutants-") as work:
        outcomes = tried(mutants, args, deps, work)
    known = same if args.code is None else {}
    listed = read_same(STATED) if args.stated else {}
    lines = stated_tables(mutants, outcomes, same, listed) if args.stated else table(mutants, outcomes, known)
    return 0 if report(lines, mutants, outcomes, {**known, **listed}, {m.key for m in every}) else 1


if __name__ == "__main__":
    signal.signal(signal.SIGTERM, signal.default_int_handler)  # so that no prover is left running, and no folder behind
    sys.exit(main(sys.argv[1:]))
