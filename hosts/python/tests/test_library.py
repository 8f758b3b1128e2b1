"""Which shared library the package takes: one of its own version, and no other; the others are stand-ins, compiled here."""

import os
import shutil
import subprocess
import sys
import tempfile
import tomllib
import unittest
from ctypes import sizeof
from pathlib import Path

HERE = Path(__file__).resolve()
ROOT = HERE.parents[3]
sys.path.insert(0, str(HERE.parents[1]))
import ginghamowl
from ginghamowl import _library

VERSION = ginghamowl.__version__
CALL = """\
import ginghamowl
try:
    ginghamowl.value(b"")
except ImportError as error:
    print(type(error).__name__, error, sep=": ")
"""

# A library that tells its version and ends the process where it is asked for a figure.
LIBRARY = """#include <stdlib.h>
#include "ginghamowl.h"
ginghamowl_engine_version ginghamowl_version(void) { ginghamowl_engine_version told = {%s, GINGHAMOWL_KIT}; return told; }
ginghamowl_valuation ginghamowl_value(const uint8_t *f, size_t n, uint64_t *a, size_t m, int64_t *b, size_t k)
{ (void)f; (void)n; (void)a; (void)m; (void)b; (void)k; abort(); }
"""


class OwnLibrary(unittest.TestCase):
    def test_kit(self):
        self.assertEqual(ginghamowl.kit(), tomllib.loads((ROOT / "hosts/words.toml").read_text())["kit"])

    def test_version(self):
        told = _library.engine().version()
        self.assertEqual(f"{told.major}.{told.minor}.{told.patch}", VERSION)
        self.assertEqual((sizeof(told), _library.HostVersion.kit.offset), (44, 12))


@unittest.skipUnless(shutil.which("gcc"), "gcc is not installed")
class OtherLibraries(unittest.TestCase):
    def setUp(self):
        folder = tempfile.TemporaryDirectory()
        self.addCleanup(folder.cleanup)
        self.library = Path(folder.name, "libginghamowl.so")

    def call(self, source, *command):
        """What a program says that has this library."""
        subprocess.run(["gcc", "-shared", "-fPIC", f"-I{ROOT}/include", "-x", "c", "-", "-o", self.library], input=source, text=True,
                       check=True)
        environment = os.environ | {"PYTHONPATH": str(HERE.parents[1]), "GINGHAMOWL_LIBRARY": str(self.library)}
        return subprocess.run([sys.executable, *command], env=environment, capture_output=True, text=True)

    def sentence(self, told):
        return (f"the engine's shared library can't be loaded ({self.library} {told}, and this package is of version {VERSION}); "
                "hosts/build makes it, of this package's version, and GINGHAMOWL_LIBRARY may name another place\n")

    def assertNotLoaded(self, source, told):
        run = self.call(source, "-c", CALL)
        self.assertEqual((run.returncode, run.stdout, run.stderr), (0, f"LibraryError: {self.sentence(told)}", ""))

    def test_another_version(self):
        major, minor, patch = map(int, VERSION.split("."))
        for other in ((major + 1, minor, patch), (major, minor + 1, patch), (major, minor, patch + 1), (major, patch, minor + 7)):
            self.assertNotLoaded(LIBRARY % ", ".join(map(str, other)), "is of version " + ".".join(map(str, other)))

    def test_no_version(self):
        """As libraries before 0.9.0, and those of something else."""
        for source in ((LIBRARY % "0, 0, 0").replace("ginghamowl_version(", "ginghamowl_another("), "int other;\n"):
            self.assertNotLoaded(source, "tells no version, as those before 0.9.0 do")

    def test_its_own_version(self):
        """Only then is a function missed."""
        run = self.call(LIBRARY % VERSION.replace(".", ", "), "-c", CALL)
        self.assertEqual((run.returncode, run.stderr), (0, ""))
        self.assertRegex(run.stdout, r"\ALibraryError: the engine's shared library can't be loaded \(.*: undefined symbol: ginghamowl_refusal\)")

    def test_program(self):
        """python -m ginghamowl: no answer."""
        run = self.call(LIBRARY % "0, 8, 1", "-m", "ginghamowl", ROOT / "cases/c1.case")
        self.assertEqual((run.returncode, run.stdout, run.stderr), (2, "", self.sentence("is of version 0.8.1")))


if __name__ == "__main__":
    unittest.main()
