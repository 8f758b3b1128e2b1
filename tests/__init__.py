"""What tests the engine beside what is proved of it, in rooms by kind; all of it runs from the root of the repository, ROOT."""

from pathlib import Path

ROOT = Path(__file__).resolve().parent.parent
