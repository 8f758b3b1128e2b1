"""hosts/build, hosts/install, the Rust crate and bench/run beside stand-ins for rt, the engine, dpkg-query and apt-get, in a copy of what
they read.

The stand-ins for rt and for the kit's rattle prove nothing: the first counts how often it was asked to, and the second compiles a few lines
of C to an archive.
"""

import os
import shutil
import subprocess
import tempfile
import unittest
from pathlib import Path

from tests import ROOT
from tests.unit.checkouts import ENGINE, KIT, VERDICT, copy_written, executable, without_c_tests

# `rt ci` is called at the top of a copy of the crates, and the kit's rattle in the copy's crates/host.
RT = """#!/usr/bin/env bash
set -eu
case "$*" in
  version) cat "$STAND_IN/kit" ;; # fails where the file is gone
  doc) echo "$STAND_IN/START-HERE.md" ;;
  ci)
    echo call >>"$STAND_IN/calls"
    [ ! -e "$STAND_IN/slow" ] || sleep 1
    [ ! -e "$STAND_IN/edit" ] || { rm "$STAND_IN/edit"; echo '/* edited */' >>"$STAND_IN/../tree/crates/host/engine.c"; }
    [ ! -e "$STAND_IN/broken" ] || { echo 'rt: host NOT PROVED'; echo '1 passed, 1 failed'; exit 1; }
    echo '2 passed, 0 failed' ;;
  *) exit 2 ;;
esac
"""

RATTLE = """#!/usr/bin/env bash
set -eu
echo "$@" >"$STAND_IN/words"
gcc -I"$STAND_IN/../tree/include" -fPIC -c -o out/host.o engine.c
ar rcs "${@: -1}" out/host.o
cat "$STAND_IN/verdict"
"""

class InACopy(unittest.TestCase):
    def setUp(self):
        folder = tempfile.TemporaryDirectory()
        self.addCleanup(folder.cleanup)
        self.root, self.stand_in = Path(folder.name, "tree"), Path(folder.name, "bin")
        self.stand_in.mkdir()
        self.environment = os.environ | {"PATH": f"{self.stand_in}:{os.environ['PATH']}", "STAND_IN": str(self.stand_in)}
        self.environment.pop("DESTDIR", None)
        self.temporary = Path(folder.name, "temporary")
        self.temporary.mkdir()
        self.environment["TMPDIR"] = str(self.temporary)

    def call(self, *command, **more):
        return subprocess.run(command, cwd=self.root, env=self.environment | more, capture_output=True, text=True)


@unittest.skipUnless(shutil.which("gcc") and shutil.which("ar"), "gcc is not installed")
class Build(InACopy):
    def setUp(self):
        super().setUp()
        generated = shutil.ignore_patterns("target", "__pycache__", "*.so")
        for name in ("hosts", "include", "tools"):
            shutil.copytree(ROOT / name, self.root / name, ignore=generated)
        shutil.copy(ROOT / "VERSION", self.root)
        (self.root / "crates.txt").write_text("low:\nflat: low\nhost staticlib: low flat\nother: low\n")
        copy_written(self.root)
        for name in ("host", "low", "other"):
            (self.root / "crates" / name).mkdir(parents=True, exist_ok=True)
            (self.root / "crates" / name / "engine.c").write_text(ENGINE)
        without_c_tests(self.root)
        (self.stand_in / "bin").mkdir()
        executable(self.stand_in / "rt", RT)
        executable(self.stand_in / "bin/rattle", RATTLE)
        self.of_kit(f"{KIT} logic 1")
        (self.stand_in / "verdict").write_text(f"fn host::value: proved\n{VERDICT}\n")
        self.target = self.root / "hosts/target"
        self.soname = f"libginghamowl.so.{(ROOT / 'VERSION').read_text().rpartition('.')[0]}"
        self.outputs = [self.target / name for name in ("libginghamowl.a", self.soname, "libginghamowl.so", "example", "test")]
        self.outputs.append(self.root / "hosts/python/ginghamowl/libginghamowl.so")

    def of_kit(self, line):
        (self.stand_in / "kit").write_text(f"{line}\n")

    def build(self):
        return self.call("hosts/build")

    def builds(self, times):
        """hosts/build succeeds, and has asked for the archive this many times in all."""
        run = self.build()
        self.assertEqual(run.returncode, 0, run.stdout + run.stderr)
        self.assertEqual((self.stand_in / "calls").read_text().count("call"), times)
        self.assertEqual([path for path in self.outputs if not path.exists()], [])
        self.assertEqual(list(self.temporary.iterdir()), [])

    def test_outputs(self):
        self.builds(1)
        self.assertEqual(os.readlink(self.target / "libginghamowl.so"), self.soname)
        dynamic = subprocess.run(["readelf", "-d", self.target / self.soname], capture_output=True, text=True, check=True).stdout
        self.assertIn(f"[{self.soname}]", dynamic)
        symbols = subprocess.run(["nm", "-D", "--defined-only", self.target / self.soname], capture_output=True, text=True).stdout
        self.assertEqual(symbols.count(" T ginghamowl_"), 13)

    def test_only_content_counts(self):
        self.builds(1)
        self.builds(1)
        engine = self.root / "crates/host/engine.c"
        os.utime(engine)
        self.builds(1)
        before = engine.stat()
        engine.write_text(ENGINE.replace("return 1", "return 2"))
        os.utime(engine, ns=(before.st_atime_ns, before.st_mtime_ns))
        self.builds(2)
        (self.root / "crates/low/new").write_text("")
        self.builds(3)
        (self.root / "crates/low/new").rename(self.root / "crates/low/newer")
        self.builds(4)
        for name in ("low/out/kept", "host/must-fail/wrong.edit"):
            (self.root / "crates" / name).parent.mkdir()
            (self.root / "crates" / name).write_text("no part of the engine")
            self.builds(4)
        self.of_kit(f"{KIT} logic 2")
        self.builds(5)
        example = self.root / "hosts/c/example.c"
        example.write_text(example.read_text() + "\n")
        self.builds(6)
        self.builds(6)
        with open(self.root / "tools/proving.sh", "a") as file:
            file.write("# edited\n")
        self.builds(7)

    def test_outputs_changed_or_gone(self):
        self.builds(1)
        for times, path in enumerate(self.outputs, 2):
            path.unlink()
            self.builds(times)
        (self.root / "hosts/python/ginghamowl/libginghamowl.so").write_bytes(b"not a library")
        self.builds(len(self.outputs) + 2)

    def assert_nothing_left(self, run):
        self.assertNotEqual(run.returncode, 0)
        self.assertEqual([path for path in self.outputs if os.path.lexists(path)], [])
        self.assertEqual(list(self.target.iterdir()), [])
        self.assertEqual(list(self.temporary.iterdir()), [])

    def test_failed_builds(self):
        self.builds(1)
        (self.root / "crates/low/new").write_text("")
        (self.stand_in / "broken").write_text("")
        run = self.build()
        self.assert_nothing_left(run)
        self.assertIn("host NOT PROVED", run.stdout)
        (self.stand_in / "broken").unlink()
        example = self.root / "hosts/c/example.c"
        good = example.read_text()
        example.write_text(good + "int unfinished(")
        self.assert_nothing_left(self.build())
        example.write_text(good)
        self.builds(4)

    def test_what_is_compiled(self):
        """The crate host over the libraries that were judged, and over the kit's."""
        self.builds(1)
        words = (self.stand_in / "words").read_text()
        for part in ("--crate-type staticlib", "--extern low=../low/out/rlib/low.rlib", "-L dependency=../low/out/rlib",
                     f"--extern std={self.stand_in}/rlibs/std.rlib"):
            self.assertIn(f" {part} ", words)
        for part in ("--incremental", "other"):
            self.assertNotIn(part, words)

    def test_an_archive_without_a_verdict(self):
        for line in (f"{VERDICT} incremental=trusted", VERDICT.replace("sum=12ab", "sum=12ab hides=1"), VERDICT.replace("proved", "unproved"),
                     VERDICT.replace(" statements=trusted", ""), f"{VERDICT}\nnot proved"):
            (self.stand_in / "verdict").write_text(line + "\n")
            run = self.build()
            self.assert_nothing_left(run)
            self.assertIn("the engine is not proved, so there is no archive", run.stderr)

    def test_an_edit_during_the_build(self):
        (self.stand_in / "edit").write_text("")
        run = self.build()
        self.assert_nothing_left(run)
        self.assertIn("the sources changed", run.stderr)
        self.builds(2)

    def test_kit_that_does_not_tell_its_version(self):
        self.builds(1)
        (self.stand_in / "kit").unlink()
        self.assertNotEqual(self.build().returncode, 0)

    def test_another_kit(self):
        """What the library tells is the kit that it is built with. rt tells the kit first, and then more."""
        for line in ("another-kit logic 1", f"{KIT}2 logic 1", f"x{KIT} logic 1", "", f"logic {KIT}"):
            self.of_kit(line)
            run = self.build()
            self.assertEqual((run.returncode, run.stdout), (1, ""), line)
            self.assertIn(f"the toolchain here is '{line}', and the library would say that it is proved with {KIT}: ", run.stderr)
            self.assertFalse((self.stand_in / "calls").exists())
        self.of_kit(KIT)
        self.builds(1)

    def test_words_that_differ(self):
        (self.root / "VERSION").write_text("9.9.9\n")
        run = self.build()
        self.assertEqual(run.returncode, 1)
        self.assertIn("include/ginghamowl.h differs: run hosts/words", run.stdout)

    def test_two_at_once(self):
        (self.stand_in / "slow").write_text("")
        both = [subprocess.Popen(["hosts/build"], cwd=self.root, env=self.environment, stdout=subprocess.PIPE,
                                 stderr=subprocess.PIPE, text=True) for _ in range(2)]
        said = sorted((one.communicate()[0] for one in both), key=len)
        self.assertEqual([one.returncode for one in both], [0, 0])
        self.assertEqual(said[0], "hosts/build: nothing has changed\n")
        self.assertTrue(said[1].startswith(f"{VERDICT}\nbuilt "), said)
        self.builds(1)

    def test_install(self):
        self.builds(1)
        place = self.root / "stage/usr/local"
        run = self.call("hosts/install", "/usr/local", DESTDIR=str(self.root / "stage"))
        self.assertEqual(run.returncode, 0, run.stderr)
        found = sorted(str(path.relative_to(place)) for path in place.rglob("*") if not path.is_dir())
        self.assertEqual(found, ["include/ginghamowl.h", "include/ginghamowl_words.h", "lib/libginghamowl.a",
                                 "lib/libginghamowl.so", f"lib/{self.soname}", "lib/pkgconfig/ginghamowl.pc"])
        self.assertEqual(os.readlink(place / "lib/libginghamowl.so"), self.soname)
        lines = (place / "lib/pkgconfig/ginghamowl.pc").read_text().splitlines()
        self.assertIn("prefix=/usr/local", lines)
        self.assertIn(f"Version: {(ROOT / 'VERSION').read_text().strip()}", lines)
        self.assertEqual(self.call("hosts/install", "/usr/local", DESTDIR=str(self.root / "stage")).returncode, 0)

    def test_install_where_nobody_may_write(self):
        (self.root / "a file").write_text("")
        for place in ("a file/below", "/proc/ginghamowl"):
            run = self.call("hosts/install", place)
            self.assertEqual(run.returncode, 1)
            self.assertIn("can't be written to", run.stderr)
        self.assertFalse((self.stand_in / "calls").exists())

    def test_install_usage(self):
        for words in (["-h"], ["--help"]):
            run = self.call("hosts/install", *words)
            self.assertEqual((run.returncode, run.stderr), (0, ""))
            self.assertTrue(run.stdout.startswith("usage: hosts/install PREFIX\n"), run.stdout)
        before = sorted(self.root.iterdir())
        for wrong in ([], [""], ["a", "b"], ["-"], ["-x"], ["--prefix=a"], ["--version"], ["a", "--help"]):
            run = self.call("hosts/install", *wrong)
            self.assertEqual((run.returncode, run.stdout), (2, ""), wrong)
            self.assertTrue(run.stderr.startswith("usage: hosts/install PREFIX\n"), run.stderr)
        self.assertEqual(sorted(self.root.iterdir()), before)
        self.assertEqual(self.call("hosts/install", "./-x").returncode, 0)
        self.assertTrue((self.root / "-x/lib/pkgconfig/ginghamowl.pc").exists())

    @unittest.skipUnless(shutil.which("pkg-config"), "pkg-config is not installed")
    def test_install_for_pkg_config(self):
        """Its flags are one word each for a shell that evaluates them, whatever the prefix, and gcc finds all by them."""
        (self.root / "program.c").write_text("#include <ginghamowl.h>\nint main(void) { return ginghamowl_refusal(0, 0) != 1; }\n")
        self.environment["PKG_CONFIG_PATH"] = "."
        for name in ("plain", "a blank", "two  blanks", "a#b", "#", "a'b", "a`b", "a&b;c|d<e>f", "a*b?c[d]e", "a{b}~!%^@=+:,", "\u20ac"):
            prefix = self.root / "p" / name
            self.assertEqual(self.call("hosts/install", str(prefix)).returncode, 0)
            shutil.copy(prefix / "lib/pkgconfig/ginghamowl.pc", self.root)  # a colon would end a folder's name in the path
            run = self.call("sh", "-c", 'eval "set -- $(pkg-config --cflags --libs ginghamowl)"; printf "%s\\n" "$@"; gcc program.c "$@"')
            self.assertEqual((run.returncode, run.stdout), (0, f"-I{prefix}/include\n-L{prefix}/lib\n-lginghamowl\n"), run.stderr)
            self.assertEqual(self.call("pkg-config", "--variable=libdir", "ginghamowl").stdout, f"{prefix}/lib\n")
            if not set(":;") & set(name):  # in the loader's path, too, and so does a semicolon
                self.assertEqual(self.call("./a.out", LD_LIBRARY_PATH=f"{prefix}/lib").returncode, 0)

    def test_install_where_pkg_config_cannot(self):
        for name in ('a"b', "a$b", "a(b", "a)b", "a\\b", "a\nb", "a ", "a\t"):
            run = self.call("hosts/install", str(self.root / "p" / name))
            self.assertEqual((run.returncode, run.stdout), (2, ""), name)
            self.assertIn("pkg-config cannot hand it on", run.stderr)
        self.assertFalse((self.root / "p").exists())


@unittest.skipUnless(shutil.which("gcc") and shutil.which("ar") and shutil.which("cargo"), "gcc or cargo is not installed")
class RustCrate(InACopy):
    """The example over an archive that another checkout may have made."""

    def setUp(self):
        super().setUp()
        shutil.copytree(ROOT / "hosts/rust", self.root / "hosts/rust", ignore=shutil.ignore_patterns("target"))

    def value(self, engine):
        """The example on an empty file, over this engine."""
        (self.root / "engine.c").write_text(engine)
        self.assertEqual(self.call("gcc", f"-I{ROOT}/include", "-fPIC", "-c", "engine.c").returncode, 0)
        self.assertEqual(self.call("ar", "rcs", "libginghamowl.a", "engine.o").returncode, 0)
        return self.call("cargo", "run", "--offline", "--quiet", "--manifest-path", "hosts/rust/Cargo.toml", "--example", "value", "/dev/null",
                         GINGHAMOWL_ARCHIVE=str(self.root), CARGO_TARGET_DIR=str(self.root / "target"))

    def test_versions(self):
        run = self.value(ENGINE)
        self.assertEqual((run.returncode, "\nterm 120: factor 0 to 0 " in run.stdout), (0, True), run.stderr)
        own = (ROOT / "VERSION").read_text().strip()
        major, minor, patch = map(int, own.split("."))
        for other in ((major + 1, minor, patch), (major, minor + 1, patch), (major, minor, patch + 1)):
            run = self.value(ENGINE.replace("own = {", "own = {%d, %d, %d, GINGHAMOWL_KIT}, header = {" % other))
            self.assertEqual((run.returncode, run.stdout), (101, ""), run.stderr)
            told = ".".join(map(str, other))
            self.assertIn(f"the engine's archive is of version {told}, and the crate ginghamowl is of version {own}; hosts/build makes ",
                          run.stderr)
        run = self.value(ENGINE.replace("ginghamowl_version(", "ginghamowl_another("))
        self.assertEqual((run.returncode, run.stdout), (101, ""))
        self.assertIn("ginghamowl_version", run.stderr)  # by the linker


class Bench(InACopy):
    def setUp(self):
        super().setUp()
        (self.root / "bench").mkdir(parents=True)
        shutil.copy(ROOT / "bench/run", self.root / "bench")
        executable(self.stand_in / "apt-get", '#!/bin/sh\necho "$@" >>"$STAND_IN/asked"\nexit 7\n')

    def installed(self, *packages):
        executable(self.stand_in / "dpkg-query", '#!/bin/sh\nfor package; do :; done\n'
                   f'case " {" ".join(packages)} " in *" $package "*) echo install ok installed ;; *) exit 1 ;; esac\n')

    def test_says_what_is_missing(self):
        self.installed("libgmp-dev", "valgrind")
        run = self.call("bench/run")
        self.assertEqual((run.returncode, run.stdout), (2, ""))
        self.assertIn("apt-get install libflint-dev libflint-arb-dev'", run.stderr)
        self.assertFalse((self.stand_in / "asked").exists())

    def test_installs_when_told_to(self):
        self.installed("valgrind")
        self.assertEqual(self.call("bench/run", "--install").returncode, 7)
        self.assertEqual((self.stand_in / "asked").read_text(), "install -y libgmp-dev libflint-dev libflint-arb-dev\n")

    def test_wrong_calls(self):
        self.installed()
        archive = self.root / "other.a"
        archive.touch()
        for wrong in (["--instal"], [""], ["--install", "--install"], ["--before"], ["--install", "--before"], ["--before", ""],
                      ["--before", archive, "--before", archive], ["--before", archive, archive]):
            run = self.call("bench/run", *wrong)
            self.assertEqual((run.returncode, run.stderr), (2, "usage: bench/run [--install] [--before ARCHIVE]\n"))
        self.assertFalse((self.stand_in / "asked").exists())

    def test_the_archive_of_another_commit(self):
        self.installed("valgrind")
        run = self.call("bench/run", "--install", "--before", "no.a")
        self.assertEqual((run.returncode, run.stderr), (2, "bench/run: there is no archive no.a\n"))
        self.assertFalse((self.stand_in / "asked").exists())
        (self.root / "other.a").touch()
        for both in (["--install", "--before", "other.a"], ["--before", "other.a", "--install"]):
            self.assertEqual(self.call("bench/run", *both).returncode, 7)


if __name__ == "__main__":
    unittest.main()
