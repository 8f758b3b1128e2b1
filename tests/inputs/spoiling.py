"""Faults in the order of checks, of whatever is checked: a list of (refusal, the ways to be refused with it), a way being a change."""


def spoiled(checked, faults):
    """What is checked, with some faults, which are given in the order of checks. A later one comes in first: what changes a list's length
    keeps what is wrong in it."""
    for fault in reversed(faults):
        checked = fault(checked)
    return checked


def two_faults(checked, faults):
    """Every pair of faults that two checks find."""
    return [spoiled(checked, [first, second]) for at, (_, ways) in enumerate(faults) for first in ways
            for _, later in faults[at + 1:] for second in later]


def several_faults(rng, checked, faults):
    """Faults that three to six checks find."""
    chosen = sorted(rng.sample(range(len(faults)), rng.randint(3, 6)))
    return spoiled(checked, [rng.choice(faults[at][1]) for at in chosen])


def order_rows(checked, faults):
    """Two faults each, of checks that follow each other: the first that applies is given."""
    for (first, ways), (second, later) in zip(faults, faults[1:]):
        yield f"{first} before {second}", spoiled(checked, [ways[0], later[0]])
