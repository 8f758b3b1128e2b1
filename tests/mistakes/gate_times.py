"""What the must-fail edits of the gate cost, by crate. Each edit is a whole check of its crate, so most of the gate's time goes to them.

    python3 -m tests.mistakes.gate_times --checks [TREE]   measures: checks each crate of TREE (the repository) once, one at a time

It prints processor seconds, user and system together, of `rt check` in each crate, each after those that it depends on. TREE should be a
fresh clone, without out/ in its crates: a crate that is already proved costs little. rt also begins with what a check of another
checkout on this machine kept, so a whole measure is of a machine that has no other; the rows of such crates say so. A row ends with
(edits + 1) x seconds, which is about what the crate costs the gate.

Ends with 1 if there is nothing to show or a check fails, and with 2 after a wrong command line.
"""

import glob
import os
import resource
import subprocess
import sys
from graphlib import CycleError, TopologicalSorter

from tests import ROOT

USAGE = "usage: python3 -m tests.mistakes.gate_times --checks [TREE]"


def fail(message):
    print(f"gate_times: {message}", file=sys.stderr)
    return 1


def read_text(path):
    with open(path, encoding="utf-8", errors="replace") as file:
        return file.read()


def in_order(text):
    """The crates of a crates.txt, each behind those that it depends on. The kit's libraries are only depended on."""
    lines = [line.partition("#")[0].partition(":") for line in text.splitlines()]
    crates = {words.split()[0]: rest.split() for words, colon, rest in lines if colon}
    return [name for name in TopologicalSorter(crates).static_order() if name in crates]


def children_seconds():
    spent = resource.getrusage(resource.RUSAGE_CHILDREN)
    return spent.ru_utime + spent.ru_stime


def run_check(tree, name):
    """One check: its processor seconds, whether the crate passed it, and what rt said."""
    before = children_seconds()
    try:
        run = subprocess.run(["rt", "check"], cwd=os.path.join(tree, "crates", name), env=os.environ | {"RT_JOBS": "1"}, stdin=subprocess.DEVNULL,
                             stdout=subprocess.PIPE, stderr=subprocess.STDOUT, encoding="utf-8", errors="replace")
    except OSError as problem:
        return 0, False, f"rt cannot be run in crates/{name}: {problem.strerror}"
    return children_seconds() - before, run.returncode == 0, run.stdout


def measure(tree):
    try:
        names = in_order(read_text(os.path.join(tree, "crates.txt")))
    except (OSError, CycleError) as problem:
        return fail(problem)
    edits, seconds, gate = 0, 0, 0
    for name in names:
        count = len(glob.glob(os.path.join(glob.escape(tree), "crates", name, "must-fail", "*.edit")))
        spent, passed, said = run_check(tree, name)
        if not passed:
            return fail(f"the check of {name} failed:\n" + "\n".join(said.splitlines()[-20:]))
        already = "  over kept work" if f"rt: {name}: begins with what a check kept" in said else ""
        print(f"{name:16} edits {count:4} {spent:8.2f} s {(count + 1) * spent:10.2f} s{already}", flush=True)
        edits, seconds, gate = edits + count, seconds + spent, gate + (count + 1) * spent
    if not names:
        return fail(f"{tree}/crates.txt lists no crate")
    print(f"{'all':16} edits {edits:4} {seconds:8.2f} s {gate:10.2f} s")
    return 0


def main(words):
    named = [word for word in words if not word.startswith("-")]
    if words == ["--checks", *named] and len(named) <= 1:
        return measure(*named or [ROOT])
    print(USAGE, file=sys.stderr)
    return 2


if __name__ == "__main__":
    sys.exit(main(sys.argv[1:]))
