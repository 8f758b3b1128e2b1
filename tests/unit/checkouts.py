"""Copies of the repository's scripts with a stand-in for rt, in which tests call them: what several of these tests share."""

import json
import os
import shutil
import subprocess
import tempfile
import tomllib
import unittest
from pathlib import Path

from tests import ROOT
from tests.inputs import examples
from tests.reference import reference

C1 = reference.encode(examples.c1(), False, False, True)
C1_LISTING = reference.listing(C1)
KIT = tomllib.loads((ROOT / "hosts/words.toml").read_text())["kit"]


# ---------------------------------------------------------------- of hosts/build

VERDICT = "logic=proved functions=3 target=x86_64 sum=12ab native=nat,char,string logic-built=trusted libraries-built=trusted statements=trusted"

ENGINE = """#include "ginghamowl.h"
static const ginghamowl_valuation none;
static const ginghamowl_engine_version own = {GINGHAMOWL_VERSION_MAJOR, GINGHAMOWL_VERSION_MINOR, GINGHAMOWL_VERSION_PATCH, GINGHAMOWL_KIT};
ginghamowl_engine_version ginghamowl_version(void) { return own; }
ginghamowl_valuation ginghamowl_value(const uint8_t *f, size_t n, uint64_t *a, size_t m, int64_t *b, size_t k)
{ (void)f; (void)n; (void)a; (void)m; (void)b; (void)k; return none; }
uint8_t ginghamowl_refusal(const uint8_t *f, size_t n) { (void)f; (void)n; return 1; }
ginghamowl_part ginghamowl_rates_part(const uint8_t *f, size_t n) { ginghamowl_part p = {0, 0}; (void)f; (void)n; return p; }
ginghamowl_point ginghamowl_window_point(uint64_t p, const uint64_t *a, size_t m, ginghamowl_figures f)
{ ginghamowl_point blank = {0, 0, 0}; (void)p; (void)a; (void)m; (void)f; return blank; }
size_t ginghamowl_listing(ginghamowl_valuation v, uint8_t *out, size_t n) { (void)v; (void)out; (void)n; return 0; }
ginghamowl_saved ginghamowl_save(ginghamowl_case_fields c, const int32_t *r, size_t n, const uint64_t *p, size_t m, const uint64_t *b,
                                 size_t k, uint8_t *out, size_t l)
{ ginghamowl_saved s = {4, 0}; (void)c; (void)r; (void)n; (void)p; (void)m; (void)b; (void)k; (void)out; (void)l; return s; }
ginghamowl_rolling_window ginghamowl_rolling_empty(void) { ginghamowl_rolling_window w = {0, 0, {0}, {0}}; return w; }
ginghamowl_changed_window ginghamowl_rolling_add(ginghamowl_rolling_window w, ginghamowl_day d)
{ ginghamowl_changed_window c = {15, w}; (void)d; return c; }
ginghamowl_changed_window ginghamowl_rolling_drop(ginghamowl_rolling_window w) { ginghamowl_changed_window c = {16, w}; return c; }
ginghamowl_valuation ginghamowl_rolling_value(ginghamowl_rolling_window w, ginghamowl_case_fields c, const int32_t *r, size_t n,
                                              const uint64_t *p, size_t m, const uint64_t *b, size_t k, uint64_t *f, size_t l,
                                              int64_t *z, size_t o)
{ (void)w; (void)c; (void)r; (void)n; (void)p; (void)m; (void)b; (void)k; (void)f; (void)l; (void)z; (void)o; return none; }
ginghamowl_ufr ginghamowl_ufr_of(const uint8_t *h, size_t n, uint64_t s)
{ ginghamowl_ufr u = {17, 0}; (void)h; (void)n; (void)s; return u; }
ginghamowl_valuation ginghamowl_value_with_months(const uint8_t *f, size_t n, const uint8_t *h, size_t m, uint64_t s, uint64_t *a,
                                                  size_t k, int64_t *b, size_t l)
{ (void)f; (void)n; (void)h; (void)m; (void)s; (void)a; (void)k; (void)b; (void)l; return none; }
"""


def executable(path, text):
    path.write_text(text)
    path.chmod(0o755)


def copy_written(root):
    """What hosts/words writes of the engine and of the program, which hosts/build asks for."""
    for name in ("crates/host/src/version.rt", "crates/flat/specs/Version.antt", "crates/command/src/version.rt"):
        (root / name).parent.mkdir(parents=True, exist_ok=True)
        shutil.copy(ROOT / name, root / name)


def without_c_tests(root):
    """In place of the tests in C, which would be compiled at each build and are never run, one file that does nothing."""
    shutil.rmtree(root / "hosts/c/test")
    (root / "hosts/c/test").mkdir()
    (root / "hosts/c/test/main.c").write_text("int main(void) { return 0; }\n")


# ---------------------------------------------------------------- of ./value

# It is called as `rt ci`, in a copy of the crates. Counts the calls, and hands out the file `program`. A file `edit` has the
# first call change a source of the checkout once; `edits`, `slow`, `fails` and `lacks` have one change one, wait, fail, or end well with a
# last line that is no verdict, for as long as they are there.
RT = """#!/bin/sh
[ "$*" = ci ] || exit 2
echo call >> "$STAND_IN/calls"
find . -type f | sort > "$STAND_IN/copied"
source=$STAND_IN/../checkout/crates/a/src/lib.rt
[ ! -e "$STAND_IN/edit" ] || { rm -f "$STAND_IN/edit"; echo '// edited' >> "$source"; }
[ ! -e "$STAND_IN/edits" ] || echo '// edited' >> "$source"
echo 'rt: a is kept: an earlier run on this machine proved the same files over the same libraries'
[ ! -e "$STAND_IN/slow" ] || {
  echo 'rt: ginghamowl: another run on this machine is proving the same; waiting for it'
  echo 'rt: ginghamowl proved'
  sleep 0.7
}
mkdir crates/ginghamowl/out && cp "$STAND_IN/program" crates/ginghamowl/out/ginghamowl || exit 2
[ ! -e "$STAND_IN/fails" ] || { echo 'rt: a NOT PROVED'; echo '2 passed, 1 failed'; exit 1; }
[ ! -e "$STAND_IN/lacks" ] || { echo '3 passed, 0 failed (of some crates: not the gate)'; exit; }
echo '3 passed, 0 failed'
"""
PROGRAM = f'#!/bin/sh\nexec {ROOT}/crates/ginghamowl/out/ginghamowl "$@"\n'
SOURCES = ("crates/a/src/lib.rt", "crates/a/src/out/inner.rt", "crates/a/specs/S.antt", "crates/a/proofs/P.antt", "crates/a/proofs/f/Proof.antt",
           "crates/a/proofs/m/f/Proof.antt", "crates/a/proofs/m/T/f/Proof.antt", "crates/ginghamowl/src/main.rt", "crates/ginghamowl/stdin",
           "crates/ginghamowl/stdout")
CRATES = "# what the program reads\na:\nginghamowl: a std\n\nother: a ginghamowl\n"


def unwarned(run):
    """What a call has said on standard error beyond its warnings."""
    return [line for line in run.stderr.decode().splitlines() if ": warning: " not in line]


class Checkout(unittest.TestCase):
    """A checkout in which every file that ./value needs is the repository's own, but for the crates and for rt."""

    def setUp(self):
        self.place = tempfile.TemporaryDirectory()
        self.addCleanup(self.place.cleanup)
        self.folder = Path(self.place.name)
        self.folder.chmod(0o755)
        self.root, self.rt = self.folder / "checkout", self.folder / "rt"
        for name in ("value", "VERSION", "hosts/words.toml"):
            (self.root / name).parent.mkdir(parents=True, exist_ok=True)
            shutil.copy(ROOT / name, self.root / name)
        for name in ("tools", "hosts/python/ginghamowl"):
            shutil.copytree(ROOT / name, self.root / name, ignore=shutil.ignore_patterns("__pycache__", "*.so"))
        self.list_crates("")
        for name in SOURCES:
            self.write(name, name)
        for name in ("crates/other/src/lib.rt", "crates/a/must-fail/wrong.edit", "crates/a/out/kept", "crates/ginghamowl/out/ginghamowl"):
            self.write(name, "no part of the check")
        self.rt.mkdir()
        (self.rt / "rt").write_text(RT)
        (self.rt / "rt").chmod(0o755)
        self.program(PROGRAM)
        self.c1 = self.folder / "c1.case"
        self.c1.write_bytes(C1)

    def write(self, name, text):
        path = self.root / name
        path.parent.mkdir(parents=True, exist_ok=True)
        path.write_text(text)

    def list_crates(self, comment):
        self.write("crates.txt", f"# {comment}\n{CRATES}")

    def program(self, script):
        (self.rt / "program").write_text(script)
        (self.rt / "program").chmod(0o755)

    def stand_in(self, listing, told, status):
        """A program that answers every call with this listing, or this row of JSON, and keeps the input and the history that it is handed."""
        (self.rt / "listing").write_bytes(listing)
        (self.rt / "told").write_text(json.dumps({"valuations": [told]}))
        self.program(f"""#!/bin/sh
cat > "$STAND_IN/input"
shown=$STAND_IN/listing
while [ $# -gt 0 ]; do
  case $1 in --json) shown=$STAND_IN/told ;; --months) cat "$2" > "$STAND_IN/history" ;; --start) echo "$2" > "$STAND_IN/start" ;; esac
  shift
done
cat "$shown"
exit {status}
""")

    def order(self, word, stands=True):
        """Tells the stand-in what to do."""
        if stands:
            (self.rt / word).touch()
        else:
            (self.rt / word).unlink()

    def environment(self, path=None):
        return os.environ | {"PATH": f"{path or self.rt}:{os.environ['PATH']}", "STAND_IN": str(self.rt)}

    def value(self, *words, program=None, **options):
        options = {"capture_output": True, "env": self.environment()} | options
        return subprocess.run([program or self.root / "value", *words], **options)

    def calls(self):
        return len((self.rt / "calls").read_text().splitlines()) if (self.rt / "calls").exists() else 0

    def assertAnswers(self, run, calls):
        self.assertEqual((run.returncode, run.stdout), (0, C1_LISTING), run.stderr)
        self.assertEqual(self.calls(), calls)

    def assertNoAnswer(self, run, words):
        self.assertEqual((run.returncode, run.stdout), (2, b""))
        self.assertIn(words, "\n".join(unwarned(run)))
