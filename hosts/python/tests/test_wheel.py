"""The wheel: pip builds it without a network, and a fresh environment values a file with it."""

import base64
import csv
import hashlib
import importlib.util
import io
import os
import shutil
import subprocess
import sys
import tempfile
import unittest
import zipfile
from pathlib import Path

ROOT = Path(__file__).resolve().parents[3]
VERSION = (ROOT / "VERSION").read_text().strip()
ENVIRONMENT = {name: value for name, value in os.environ.items() if not name.startswith(("PYTHON", "GINGHAMOWL", "PIP_"))}
ENVIRONMENT |= {"PIP_NO_INDEX": "1", "PIP_DISABLE_PIP_VERSION_CHECK": "1", "PIP_NO_CACHE_DIR": "1"}


def run(*command, **more):
    return subprocess.run(list(map(str, command)), env=ENVIRONMENT, capture_output=True, text=True, **more)


@unittest.skipUnless(importlib.util.find_spec("pip") and importlib.util.find_spec("ensurepip"), "pip or venv is not installed")
class Wheel(unittest.TestCase):
    @classmethod
    def setUpClass(cls):
        folder = tempfile.TemporaryDirectory()
        cls.addClassCleanup(folder.cleanup)
        cls.folder = Path(folder.name)
        built = run(sys.executable, "-m", "pip", "wheel", "--wheel-dir", cls.folder, ROOT / "hosts/python")
        if built.returncode:
            raise AssertionError(built.stdout + built.stderr)
        cls.wheel = cls.folder / f"ginghamowl-{VERSION}-py3-none-linux_x86_64.whl"

    def test_content(self):
        with zipfile.ZipFile(self.wheel) as wheel:
            files = {name: wheel.read(name) for name in wheel.namelist()}
        own = f"ginghamowl-{VERSION}.dist-info/RECORD"
        recorded = {path: (checksum, size) for path, checksum, size in csv.reader(io.StringIO(files[own].decode()))}
        self.assertEqual(recorded.pop(own), ("", ""))
        del files[own]
        checksums = {name: base64.urlsafe_b64encode(hashlib.sha256(content).digest()).rstrip(b"=").decode()
                     for name, content in files.items()}
        self.assertEqual(recorded, {name: (f"sha256={checksums[name]}", str(len(files[name]))) for name in files})
        self.assertEqual({name for name in files if name.startswith("ginghamowl/")},
                         {f"ginghamowl/{name}" for name in ("__init__.py", "__main__.py", "_case.py", "_given.py", "_hints.py",
                                                            "_library.py", "_measures.py", "_months.py", "_plausible.py", "_rolling.py",
                                                            "_shown.py", "_valuation.py", "_words.py",
                                                            "libginghamowl.so", "py.typed")})

    def test_fresh_environment(self):
        place = self.folder / "fresh"
        python = place / "bin/python"
        for command in ((sys.executable, "-m", "venv", place), (python, "-m", "pip", "install", self.wheel)):
            done = run(*command)
            self.assertEqual(done.returncode, 0, done.stdout + done.stderr)
        shutil.copy(ROOT / "cases/fund.case", self.folder / "fund.case")
        valued = run(python, "-m", "ginghamowl", "--listing", "fund.case", cwd=self.folder)
        expected = (ROOT / "cases/fund.txt").read_text()
        self.assertEqual((valued.returncode, valued.stderr), (0, ""))
        self.assertEqual(valued.stdout, expected)
        where = run(python, "-c", "import ginghamowl; print(ginghamowl.__version__, ginghamowl.__file__)", cwd=self.folder)
        version, file = where.stdout.split()
        self.assertEqual(version, VERSION)
        self.assertTrue(Path(file).is_relative_to(place), file)

    def test_without_the_library(self):
        source = self.folder / "source"
        shutil.copytree(ROOT / "hosts/python", source, ignore=shutil.ignore_patterns("*.so", "__pycache__"))
        built = run(sys.executable, "-m", "pip", "wheel", "--wheel-dir", self.folder / "none", source)
        self.assertNotEqual(built.returncode, 0)
        self.assertIn("run hosts/build first", built.stdout + built.stderr)
        self.assertNotIn("Traceback", built.stdout + built.stderr)


if __name__ == "__main__":
    unittest.main()
