"""tools/proving.sh, which ./value and hosts/build share: what an interrupt ends, who waits for whom, and what is said meanwhile.

rt is a stand-in here. Told to be slow, it starts a prover, which sleeps, has a temporary file and keeps the lock, as real ones do.
"""

import fcntl
import os
import select
import shutil
import signal
import subprocess
import tempfile
import time
import unittest
from pathlib import Path

from tests import ROOT
from tests.unit.checkouts import ENGINE, KIT, VERDICT, copy_written, executable, without_c_tests

SIGNALS = signal.SIGINT, signal.SIGTERM, signal.SIGHUP
CRATES = "a:\nb:\nhost staticlib: a b\nginghamowl: a\n"
LONG = 60  # seconds; nothing here takes as long, but on a machine that is busy

# It is called at the top of a copy of the crates. A file `slow` has it start a prover and wait for it; `stubborn`, one that ignores SIGTERM.
# With `steps` it takes a crate over and proves others, and waits until the test has read which. `late` has the kit's rattle wait likewise.
RT = """#!/bin/sh
case "$*" in
  version) cat "$STAND_IN/kit"; exit ;;
  doc) echo "$STAND_IN/START-HERE.md"; exit ;;
esac
step() { turns=0; until [ -e "$STAND_IN/read $1" ] || [ $turns -gt 400 ]; do turns=$((turns + 1)); sleep 0.05; done; }
if [ -e "$STAND_IN/steps" ]; then
  echo 'rt: b is kept: an earlier run on this machine proved the same files over the same libraries'
  echo 'rt: a proved'; step a
  echo 'rt: host: another run on this machine is proving the same; waiting for it'; step host
  echo 'rt: host proved'
fi
[ ! -e "$STAND_IN/slow" ] || . "$STAND_IN/wait"
[ ! -d crates/ginghamowl ] || { mkdir crates/ginghamowl/out && cp "$STAND_IN/program" crates/ginghamowl/out/ginghamowl; }
echo '3 passed, 0 failed'
"""
WAIT = """[ ! -e "$STAND_IN/stubborn" ] || trap '' TERM
sh -c ': > "$(mktemp)"; echo "$PPID $$" > "$STAND_IN/new"; mv "$STAND_IN/new" "$STAND_IN/started"; exec sleep 600' &
wait
"""
RATTLE = f"""#!/bin/sh
[ ! -e "$STAND_IN/late" ] || . "$STAND_IN/wait"
gcc -I"$STAND_IN/../checkout/include" -fPIC -c -o out/host.o engine.c && ar rcs out/libhost.a out/host.o && echo '{VERDICT}'
"""


def is_alive(process):
    """A process that has ended, and that nobody has waited for yet, is not."""
    try:
        return Path(f"/proc/{process}/stat").read_text().rpartition(")")[2].split()[0] not in "XZ"
    except (FileNotFoundError, ProcessLookupError):
        return False


def end_group(process):
    try:
        os.killpg(process, signal.SIGKILL)
    except ProcessLookupError:
        pass


def next_line(run):
    """What the call says next on standard error, or nothing if it has nothing to say."""
    ready, _, _ = select.select([run.stderr], [], [], LONG)
    return run.stderr.readline() if ready else ""


def wait_until(holds):
    until = time.monotonic() + LONG
    while not holds():
        if time.monotonic() > until:
            raise TimeoutError
        time.sleep(0.01)


@unittest.skipUnless(shutil.which("gcc") and shutil.which("ar"), "gcc is not installed")
class Checkout(unittest.TestCase):
    """A checkout in which the scripts are the repository's own, but for the crates and for rt."""

    def setUp(self):
        folder = tempfile.TemporaryDirectory()
        self.addCleanup(folder.cleanup)
        self.root, self.rt, self.temporary = (Path(folder.name, name) for name in ("checkout", "rt", "temporary"))
        generated = shutil.ignore_patterns("target", "__pycache__", "*.so")
        for name in ("hosts", "include", "tools"):
            shutil.copytree(ROOT / name, self.root / name, ignore=generated)
        for name in ("value", "VERSION"):
            shutil.copy(ROOT / name, self.root)
        (self.root / "crates.txt").write_text(CRATES)
        for name in ("a", "b", "host", "ginghamowl"):
            (self.root / "crates" / name).mkdir(parents=True)
            (self.root / "crates" / name / "engine.c").write_text(ENGINE)
        copy_written(self.root)
        without_c_tests(self.root)
        (self.root / "a.case").write_bytes(b"")
        self.rt.mkdir()
        self.temporary.mkdir()
        (self.rt / "bin").mkdir()
        executable(self.rt / "rt", RT)
        executable(self.rt / "bin/rattle", RATTLE)
        executable(self.rt / "wait", WAIT)
        (self.rt / "kit").write_text(f"{KIT}\n")
        executable(self.rt / "program", "#!/bin/sh\ncat > /dev/null\necho 'R 1'\nexit 1\n")
        self.environment = os.environ | {"PATH": f"{self.rt}:{os.environ['PATH']}", "STAND_IN": str(self.rt),
                                         "TMPDIR": str(self.temporary)}
        self.holder = self.root / "target/proving"
        self.value = [self.root / "value", self.root / "a.case"]
        self.build = [self.root / "hosts/build"]
        self.part = ["sh", "-c", 'root=$1; . "$root/tools/proved.sh"; is_proved || prove', "value", self.root]  # of tools/report

    def order(self, *words):
        for word in words:
            (self.rt / word).touch()

    def start(self, command):
        """A call in a group of its own, which ignores no signal, as it would after a shell's &."""
        run = subprocess.Popen(command, env=self.environment, stdout=subprocess.PIPE, stderr=subprocess.PIPE, text=True,
                               start_new_session=True, preexec_fn=lambda: [signal.signal(one, signal.SIG_DFL) for one in SIGNALS])
        for cleanup in (run.wait, run.stderr.close, run.stdout.close):
            self.addCleanup(cleanup)
        self.addCleanup(end_group, run.pid)
        return run

    def start_slow(self, command, word="slow"):
        """A call that has come as far as its prover, and the process numbers of rt, or of the kit's rattle, and of the prover."""
        self.order(word)
        (self.rt / "started").unlink(missing_ok=True)
        run = self.start(command)
        wait_until((self.rt / "started").exists)
        started = [int(number) for number in (self.rt / "started").read_text().split()]
        for number in started:
            self.addCleanup(lambda number=number: is_alive(number) and os.kill(number, signal.SIGKILL))
        return run, started

    def call(self, command):
        return subprocess.run(command, env=self.environment, capture_output=True, text=True, timeout=LONG)

    def assertFree(self):
        """The lock is."""
        with open(self.root / "crates.txt") as file:
            fcntl.flock(file, fcntl.LOCK_EX | fcntl.LOCK_NB)


class Interrupts(Checkout):
    def interrupt(self, command, number, send, word="slow"):
        run, started = self.start_slow(command, word)
        send(run.pid, number)
        out, said = run.communicate(timeout=LONG)
        self.assertEqual((run.returncode, out), (-number, ""), said)
        self.assertEqual([process for process in started if is_alive(process)], [])
        self.assertFree()
        for name in ("target/value/proved", "hosts/target/record", "hosts/target/new", "target/proving"):
            self.assertFalse((self.root / name).exists(), name)
        self.assertEqual(list(self.temporary.iterdir()), [])

    def each(self, command):
        for number in SIGNALS:
            for send in (os.kill, os.killpg):
                with self.subTest(number=number, send=send.__name__):
                    self.interrupt(command, number, send)

    def test_value(self):
        self.each(self.value)
        (self.rt / "slow").unlink()
        self.assertEqual(self.call(self.value).stdout, "R 1\n")

    def test_value_in_bash(self):
        self.each(["bash", *self.value])

    def test_part_of_report(self):
        self.each(self.part)

    def test_build(self):
        self.each(self.build)
        (self.rt / "slow").unlink()
        self.assertEqual(self.call(self.build).returncode, 0)

    def test_build_while_it_compiles(self):
        for number in SIGNALS:
            with self.subTest(number=number):
                self.interrupt(self.build, number, os.kill, "late")
        (self.rt / "late").unlink()
        self.assertEqual(self.call(self.build).returncode, 0)

    def test_a_prover_that_ignores_the_signal(self):
        self.order("stubborn")
        for command in (self.value, self.build):
            self.interrupt(command, signal.SIGTERM, os.kill)


class Waiting(Checkout):
    def assertWaits(self, command, name, for_whom):
        """Says so, and is ended by an interrupt, with nothing of it left. Whoever has the lock keeps it."""
        for number in SIGNALS:
            run = self.start(command)
            self.assertEqual(next_line(run), f"{name}: waiting for {for_whom}, which proves or builds in this checkout\n")
            os.kill(run.pid, number)
            self.assertEqual(run.communicate(timeout=LONG), ("", ""))  # no process keeps these open
            self.assertEqual(run.returncode, -number)
            with self.assertRaises(BlockingIOError):
                self.assertFree()

    def test_for_each_other(self):
        for first, name in ((self.build, "hosts/build"), (self.value, "value")):
            run, _ = self.start_slow(first)
            for second, second_name in ((self.value, "value"), (self.part, "value"), (self.build, "hosts/build")):
                self.assertWaits(second, second_name, f"{name} (process {run.pid})")
            self.assertEqual(self.holder.read_text(), f"{name} {run.pid}\n")
            os.kill(run.pid, signal.SIGTERM)
            run.communicate(timeout=LONG)

    def test_for_one_that_is_not_known(self):
        ended = subprocess.Popen("true")
        ended.wait()
        with open(self.root / "crates.txt") as file:
            fcntl.flock(file, fcntl.LOCK_EX)
            for command, name in ((self.value, "value"), (self.build, "hosts/build")):
                shutil.rmtree(self.root / "target", ignore_errors=True)
                self.assertWaits(command, name, "another call")
                self.holder.parent.mkdir(exist_ok=True)
                for text in (f"hosts/build {ended.pid}\n", "", "hosts/build\n", "hosts/build x\n", "hosts/build 1 2\n"):
                    self.holder.write_text(text)
                    self.assertWaits(command, name, "another call")

    def test_goes_on(self):
        """A call that waited does its work once the lock is free. One that need not wait says nothing of it."""
        began = "value: proving and building the program, which takes a few minutes the first time\n"
        for command, status, said in ((self.value, 1, began), (self.build, 0, "")):
            with open(self.root / "crates.txt") as file:
                fcntl.flock(file, fcntl.LOCK_EX)
                run = self.start(command)
                self.assertIn("waiting for another call", next_line(run))
            self.assertEqual((run.communicate(timeout=LONG)[1], run.returncode), (said, status))
            self.assertFalse(self.holder.exists())
            (self.root / "crates/host/new").write_text(said)
            (self.root / "crates.txt").write_text(f"# other\n{CRATES}")
            free = self.call(command)
            self.assertEqual((free.stderr, free.returncode), (said, status))


class Progress(Checkout):
    def test_build(self):
        """Each crate that was proved is named, with how many have passed; one that is taken over counts. So is one that another run proves."""
        self.order("steps")
        run = self.start(self.build)
        for crate, line in (("a", "proved a, 2 of 3 crates"), ("host", "waiting for another run of rt on this machine, which proves host")):
            self.assertEqual(next_line(run), f"hosts/build: {line}\n")
            self.order(f"read {crate}")
        out, said = run.communicate(timeout=LONG)
        self.assertEqual((run.returncode, said), (0, "hosts/build: proved host, 3 of 3 crates\n"))
        self.assertTrue(out.startswith(f"{VERDICT}\nbuilt "), out)


if __name__ == "__main__":
    unittest.main()
