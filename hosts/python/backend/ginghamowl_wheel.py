"""Builds the wheel: the PEP 517 backend of pyproject.toml, for `pip install hosts/python` and `pip wheel hosts/python`.

It is plain Python, so that pip, which builds in an environment of its own, needs nothing from a network.
hosts/build must have been run: the wheel contains the shared library, for x86-64 Linux.
"""

import base64
import hashlib
import re
import sys
import tomllib
import zipfile
from pathlib import Path
from typing import Any

PROJECT = Path(__file__).resolve().parents[1]
PACKAGE = PROJECT / "ginghamowl"
LIBRARY = PACKAGE / "libginghamowl.so"
TAG = "py3-none-linux_x86_64"


class UnsupportedOperation(Exception):
    """What PEP 517 calls a hook that a backend doesn't offer."""


def build_wheel(wheel_directory: str, config_settings: Any = None, metadata_directory: str | None = None) -> str:
    if not LIBRARY.is_file():
        sys.exit(f"ginghamowl: {LIBRARY} is missing: run hosts/build first, which proves the engine and builds it")
    stem = f"ginghamowl-{version()}"
    files = {f"ginghamowl/{path.name}": path.read_bytes() for path in package_files()}
    files |= {f"{stem}.dist-info/METADATA": metadata(), f"{stem}.dist-info/WHEEL": wheel_file()}
    files[f"{stem}.dist-info/RECORD"] = record(files, f"{stem}.dist-info/RECORD")
    name = f"{stem}-{TAG}.whl"
    with zipfile.ZipFile(Path(wheel_directory) / name, "w", zipfile.ZIP_DEFLATED) as wheel:
        for path, content in files.items():
            # The same files give the same wheel: ZipInfo's date is fixed.
            entry = zipfile.ZipInfo(path)
            entry.external_attr, entry.compress_type = 0o644 << 16, zipfile.ZIP_DEFLATED
            wheel.writestr(entry, content)
    return name


def build_sdist(sdist_directory: str, config_settings: Any = None) -> str:
    raise UnsupportedOperation("the package's source is the repository; pip wheel builds what can be handed on")


def package_files() -> list[Path]:
    return sorted([*PACKAGE.glob("*.py"), PACKAGE / "py.typed", LIBRARY])


def version() -> str:
    """The package's own, which tests hold to VERSION."""
    return re.findall(r'^VERSION = "(.*)"$', (PACKAGE / "_words.py").read_text(), re.MULTILINE)[0]


def metadata() -> bytes:
    project = tomllib.loads((PROJECT / "pyproject.toml").read_text())["project"]
    return (f"Metadata-Version: 2.1\nName: {project['name']}\nVersion: {version()}\n"
            f"Summary: {project['description']}\nRequires-Python: {project['requires-python']}\n").encode()


def wheel_file() -> bytes:
    return f"Wheel-Version: 1.0\nGenerator: ginghamowl_wheel\nRoot-Is-Purelib: false\nTag: {TAG}\n".encode()


def record(files: dict[str, bytes], own_path: str) -> bytes:
    """Each file with its checksum and size, and the record itself with neither."""
    lines = [f"{path},sha256={checksum(content)},{len(content)}\n" for path, content in files.items()]
    return "".join([*lines, f"{own_path},,\n"]).encode()


def checksum(content: bytes) -> str:
    return base64.urlsafe_b64encode(hashlib.sha256(content).digest()).rstrip(b"=").decode()
