""".ci/run beside stand-ins for rt, python3, hosts/test and df: where temporary files go, that none are left, and its verdict."""

import os
import shutil
import signal
import subprocess
import tempfile
import time
import unittest
from pathlib import Path

from tests import ROOT

TOOLS = "bash cat chmod dirname ls mkdir mktemp mv rm sed sleep tail tee".split()
SIGNALS = signal.SIGTERM, signal.SIGHUP, signal.SIGINT
ENOUGH = {"free": "3000000", "meminfo": "MemFree: 1 kB\nMemAvailable:    6000000 kB\n"}

# Notes each call with its folder for temporary files, and what is in that folder. A file `slow` has rt ci write to it for some time;
# `fails` has the call that fails.
STAND_IN = """#!/bin/sh
call="${0#"$STAND_IN/"}${*:+ $*}"
echo "$call|${TMPDIR-none}" >> "$STAND_IN/calls"
if [ "$call" = 'rt ci' ]; then
  ls -la "${TMPDIR-.}" > "$STAND_IN/found"
  cat "$STAND_IN/says"
  [ ! -e "$STAND_IN/slow" ] || for turn in 1 2 3 4 5; do sleep 0.1; echo > "$TMPDIR/$turn"; done 2> /dev/null
fi
[ "$call" != "$(cat "$STAND_IN/fails")" ]
"""
DF = """#!/bin/sh
[ "$*" = "-Pk $GATE_MEMORY" ] && [ -e "$2" ] || { echo 'df: wrong words' >&2; exit 1; }
printf 'Filesystem 1024-blocks Used Available Capacity Mounted on\\na name 4000000 3900000 %s 11%% %s\\n' "$(cat "$STAND_IN/free")" "$2"
"""
# Empties a folder, and removes it somewhat later.
RM = """#!/bin/sh
for name; do [ -d "$name" ] && { command -p rm -rf "$name"/*; sleep 0.2; command -p rmdir "$name"; } || command -p rm -f "$name"; done
"""


class Gate(unittest.TestCase):
    """The repository's own .ci/run and tools/memory.sh, room in memory that just suffices, and no program but those that are needed."""

    def setUp(self):
        place = tempfile.TemporaryDirectory()
        self.addCleanup(place.cleanup)
        self.tree, self.bin, self.memory, self.disk = (Path(place.name, name) for name in ("tree", "bin", "memory", "disk"))
        for path in (self.tree / ".ci", self.tree / "tools", self.tree / "hosts", self.bin, self.memory, self.disk):
            path.mkdir(parents=True)
        for name in (".ci/run", "tools/memory.sh"):
            shutil.copy(ROOT / name, self.tree / name)
        for name in TOOLS:
            (self.bin / name).symlink_to(shutil.which(name))
        (self.tree / "hosts/test").symlink_to(self.bin / "rt")
        self.order(rt=STAND_IN, python3=STAND_IN, df=DF, says="rt: ok\n5 passed, 0 failed\n", fails="", **ENOUGH)
        self.environment = dict(PATH=self.bin, STAND_IN=self.bin, TMPDIR=self.disk, GATE_MEMORY=self.memory, GATE_MEMINFO=self.bin / "meminfo")

    def order(self, **files):
        """Sets a program in its place, or tells the stand-ins what to say."""
        for path, text in ((self.bin / name, text) for name, text in files.items()):
            path.unlink(missing_ok=True)
            path.write_text(text)
            path.chmod(0o755)

    def gate(self, *before, **changes):
        self.order(calls="")
        environment = {name: word for name, word in (self.environment | changes).items() if word is not None}
        return subprocess.run([*before, self.tree / ".ci/run"], env=environment, capture_output=True, text=True, timeout=60)

    def calls(self):
        return dict(line.split("|") for line in (self.bin / "calls").read_text().splitlines())

    def left(self):
        return [*self.memory.iterdir(), *self.disk.iterdir()]

    def assertEnds(self, run, status=0, last="5 passed, 0 failed"):
        self.assertEqual((run.returncode, run.stdout.splitlines()[-1], run.stderr, self.left()), (status, last, "", []))

    def assertInMemory(self, run):
        self.assertEnds(run)
        said, _, place = run.stdout.splitlines()[0].partition(", ")
        self.assertEqual((said, Path(place).parent), ("temporary files: in memory", self.memory))
        self.assertEqual({self.calls()["rt ci"], self.calls()["hosts/test"], *self.calls().values()}, {place})
        self.assertRegex((self.bin / "found").read_text(), r"\A.*\ndrwxrwxrwt.*\n.*\n\Z")  # the folder and the one above: it is empty

    def assertAsBefore(self, *before, seen=None, said=None, **changes):
        run = self.gate(*before, **changes)
        self.assertEnds(run)
        self.assertEqual(run.stdout.splitlines()[0], f"temporary files: {said or self.disk}")
        self.assertEqual(set(self.calls().values()), {seen or str(self.disk)})

    def test_room(self):
        for had in (self.disk, None):
            self.assertInMemory(self.gate(TMPDIR=had))
        (self.bin / "df").unlink()
        self.assertAsBefore()
        (self.bin / "df").symlink_to(shutil.which("df"))  # its own way to print
        if shutil.disk_usage(self.memory).free >= 3_100_000 * 1024:
            self.assertInMemory(self.gate())

    def test_too_little(self):
        for name, text in (*(("free", word) for word in ("2999999", "-", "", "3000000x", "9" * 30)), ("meminfo", "MemTotal: 6000000 kB\n"),
                           ("meminfo", "MemAvailable: 5999999 kB\n"), ("meminfo", "MemAvailable: much kB\n"), ("meminfo", "")):
            self.order(**ENOUGH | {name: text})
            self.assertAsBefore()
        self.assertAsBefore(seen="none", said="/tmp", TMPDIR=None)
        self.order(**ENOUGH)
        for name, path in (("GATE_MEMINFO", self.bin / "none"), ("GATE_MEMORY", self.memory / "none"), ("GATE_MEMORY", self.bin / "df")):
            self.assertAsBefore(**{name: path})

    def test_noexec(self):
        mounted = ["unshare", "-rm", "sh", "-c", 'mount -t tmpfs -o noexec none "$GATE_MEMORY" && "$@" && ls -A "$GATE_MEMORY"', "sh"]
        path = f"{self.bin}:{os.environ['PATH']}"
        if shutil.which("unshare") and self.gate(*mounted, "true", PATH=path).returncode == 0:  # such a mount can be made here
            self.assertAsBefore(*mounted, PATH=path)
        # A file without the permission cannot be started either, not even by root: this can be tried everywhere.
        self.order(chmod='#!/bin/sh\n[ $1 = 755 ] || command -p chmod "$@"\n')
        self.assertAsBefore()

    def test_failures(self):
        good, bad, last = "5 passed, 0 failed\n", "3 passed, 1 failed\n", "python3 -m tests.compare.months --quick"
        for says, fails in ((bad, "rt ci"), (bad, ""), (good, "rt ci"), ("", ""), (good, "python3 -m tests.writers --check"),
                            (good, "hosts/test"), (good, last)):
            self.order(says=says, fails=fails)
            self.assertEnds(self.gate(), 1, "gate: FAILED")

    def interrupt(self, number, send, begun=lambda run: [run.stdout.readline() for _ in range(2)]):
        """The status of a gate that gets a signal, which it does not ignore as under nohup, once rt ci has begun."""
        run = subprocess.Popen([self.tree / ".ci/run"], env=self.environment, stdout=subprocess.PIPE, stderr=subprocess.DEVNULL,
                               start_new_session=True, preexec_fn=lambda: [signal.signal(one, signal.SIG_DFL) for one in SIGNALS])
        while not begun(run):
            time.sleep(0.01)
        send(run.pid, number)
        run.communicate(timeout=60)  # to the end of what outlives it, too
        until = time.monotonic() + 5
        while self.left() and time.monotonic() < until:
            time.sleep(0.01)
        self.assertEqual(self.left(), [])
        return run.returncode

    def test_signals(self):
        self.order(slow="", rm=RM)
        for number in SIGNALS:
            self.assertEqual(self.interrupt(number, os.killpg), -number)
            self.interrupt(number, os.kill)  # to bash alone, which goes on after a SIGINT that rt did not get
        self.order(chmod='#!/bin/sh\nsleep 0.1\ncommand -p chmod "$@"\n')
        for send in (os.kill, os.killpg):
            self.interrupt(signal.SIGTERM, send, lambda run: any(self.memory.iterdir()))  # while the folder is made


if __name__ == "__main__":
    unittest.main()
