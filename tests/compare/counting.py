"""What the comparisons of files share: their command line, and what was seen and what differs."""

import sys
from collections import Counter

from tests.compare import programs


def asked(word):
    """Whether the command line has the word; it may have no other."""
    if sys.argv[1:] not in ([], [word]):
        raise SystemExit(f"usage: python3 -m {sys.modules['__main__'].__spec__.name} [{word}]")
    return len(sys.argv) == 2


class Comparison:
    """Counts what was seen and what differs."""

    def __init__(self):
        self.outcomes, self.different = Counter(), 0

    def report(self, kind, count, wrong):
        self.different += len(wrong)
        for data, message in wrong[:5]:
            print(f"DIFFERENT, {kind}: {message}\n  file {data.hex()}")
        print(f"{kind}: {count} files, {len(wrong)} different", flush=True)

    def same(self, kind, batch, found, expected):
        """Reports the files whose answers are not the expected ones."""
        self.report(kind, len(batch), [(data, f"engine {answer}, reference {right}")
                                       for data, answer, right in zip(batch, found, expected) if answer != right])


def counts(seen):
    return ", ".join(f"{outcome}: {seen[outcome]}" for outcome in programs.OUTCOMES if seen[outcome])
