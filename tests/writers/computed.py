"""Writes numbers of the reference, and those of hosts/words.toml, as computed statements about the definitions, in the files of PATHS. A new
topic is a module here with a table PATHS of its own, and a line in MODULES.

Command line: python3 -m tests.writers.computed           writes the files
              python3 -m tests.writers.computed --check   ends with 1 if one of them is another
"""

import sys

from tests.writers import (equity, figures, four_byte_figures, four_bytes, host_answers, margins, month_histories, reading, rolling_windows,
                           saving, search)
from tests.writers.stored import asked_to_check, write_or_check

MODULES = [
    reading,
    figures,
    margins,
    saving,
    search,
    rolling_windows,
    month_histories,
    four_bytes,
    four_byte_figures,
    equity,
    host_answers,
]


def joined(tables):
    """One table of all, in order; a path is in one of them."""
    paths = {}
    for table in tables:
        twice = paths.keys() & table.keys()
        if twice:
            raise ValueError(f"in two tables: {', '.join(sorted(twice))}")
        paths |= table
    return paths


PATHS = joined(module.PATHS for module in MODULES)  # by the path of a written file: the function that gives its text


def contents():
    """What is written, by its path."""
    return {path: text().encode() for path, text in PATHS.items()}


def main(words):
    write_or_check(contents(), asked_to_check(words))


if __name__ == "__main__":
    main(sys.argv[1:])
