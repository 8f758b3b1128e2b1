"""Files of the tree that a writer writes: written, or held against what it would write."""

import sys

from tests import ROOT


def asked_to_check(words):
    """Whether a writer's command line has --check; it may have no other word."""
    if words not in ([], ["--check"]):
        sys.exit(f"usage: python3 -m {sys.modules['__main__'].__spec__.name} [--check]")
    return bool(words)


def others(contents):
    """The paths at which the tree has another content, or none."""
    return [path for path, content in contents.items() if held(ROOT / path) != content]


def held(place):
    """What a file holds; None where there is none."""
    return place.read_bytes() if place.exists() else None


def write_or_check(contents, check):
    """Writes each content to its path in the tree; with check, ends with 1 where the tree has another."""
    if check:
        other = others(contents)
        if other:
            sys.exit(f"not what its writer writes: {', '.join(other)}")
        return
    for path, content in contents.items():
        place = ROOT / path
        place.parent.mkdir(parents=True, exist_ok=True)
        place.write_bytes(content)
