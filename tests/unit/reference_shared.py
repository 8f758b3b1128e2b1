"""What several tests of the reference use: C1's listing, a file in its layout, the number that refuses a file, and a file with every field with its
faults."""

from tests.inputs import examples
from tests.reference.reference import Refusal, encode, read

C1_LINES = b"""\
L 100000000 100000000
B 0 0
A 110000000 110000000
S1 0 0
S2 0 0
S3 0 0
S4 0 0
S5 0 0
S6 10000000 10000000
S 10000000 10000000
V VRIJ VERMOGEN
"""

# A file with every field, n = 3, m = 3, k = 5.
FULL_FILE = encode(examples.apart(), True, True, True)
# Offsets of its fields after the map, and of the end.
UFR, DAYS, PENSION, BONDS, VALUES, SHOCKS_AT, PEOPLE, EQUITY, END = 2, 4, 365, 378, 399, 463, 487, 495, 497

# (refusal, offset, wrong bytes, least length at which the fault is seen); in the order of checks
FAULTS = [
    (3, 0, b"\x80", 2), (9, UFR, b"\x13\x89", DAYS), (4, DAYS, b"\x00", DAYS + 1),
    (5, DAYS + 1, b"\xfc\x17", PENSION), (7, PENSION, b"\x79", PENSION + 1),
    (8, PENSION + 1, b"\x05\xf5\xe1\x01", BONDS), (7, BONDS, b"\x3d", BONDS + 1),
    (8, BONDS + 17, b"\xff\xff\xff\xff", VALUES), (10, VALUES + 56, b"\x80" + bytes(7), SHOCKS_AT),
    (11, SHOCKS_AT + 22, b"\x01\xf5", PEOPLE), (12, PEOPLE, bytes(4), EQUITY), (11, EQUITY, b"\x03\xe9", END), (2, END, b"\x00", END + 1),
    # rates 10,000 at term 60 of all three days, the others being far lower
    (6, DAYS + 1, None, END),
]


def file_of(case):
    """A file in C1's layout: no UFR, no bonds, amounts."""
    return encode(case, False, False, True)


def number_of(data):
    """The refusal number, 0 if accepted."""
    answer = read(data)
    return answer.number if isinstance(answer, Refusal) else 0
