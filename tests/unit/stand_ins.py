"""What stand-ins for the engine share: the answer of a valuation, left where the engine leaves it."""

from ctypes import memmove

from tests.compare.lending import GUARD, HostValuation
from tests.reference.reference import MONEY, VERDICTS


def written(valued, factors, rates):
    """Leaves in both buffers what they hold afterwards; one that holds an entry more is written past its end."""
    for buffer, after in ((factors, valued.factors), (rates, valued.rates)):
        memmove(buffer, (buffer._type_ * len(after))(*after), 8 * min(len(after), len(buffer) + GUARD))
    if valued.rounded is None:
        return HostValuation(valued.refusal)
    figures = [end for name in MONEY for end in getattr(valued.rounded, name)]
    return HostValuation(valued.refusal, VERDICTS.index(valued.rounded.verdict) + 1, (HostValuation().figures._type_ * 20)(*figures))
