"""Runs every writer: python3 -m tests.writers [--check]

Writes the stored files; with --check ends with 1 if one of them is another. Each writer can be run alone too, as
python3 -m tests.writers.cases [--check].
"""

import sys

from tests.writers import cases, computed, promises, vectors
from tests.writers.stored import asked_to_check

WRITERS = (computed, cases, vectors, promises)


def passes(writer, words):
    """Whether a writer ends well; what it has to say, it says."""
    try:
        return not writer.main(words)
    except SystemExit as ended:
        if isinstance(ended.code, str):
            print(ended.code, file=sys.stderr)
        return not ended.code


def main(words):
    asked_to_check(words)
    failed = [writer.__name__ for writer in WRITERS if not passes(writer, words)]
    if failed:
        print(f"failed: {', '.join(failed)}", file=sys.stderr)
    return 1 if failed else 0


if __name__ == "__main__":
    sys.exit(main(sys.argv[1:]))
