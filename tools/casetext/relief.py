"""What a correlation between the four equity and property classes below 100 % takes off S2 (METHOD, The exact working)."""

from math import isqrt

from ginghamowl._measures import equity_losses

from .fields import DEFAULT_EQUITY_CORRELATION, Case
from .plausible import equity_correlation, in_package

Ends = tuple[int, int]  # of a bracket, in cents


def relieved(case: Case) -> tuple[Ends, Ends] | None:
    """S2 without relief, which is the sum of the four losses, and S2 with it; None of a case at 100 %, which has none."""
    correlation, losses = equity_correlation(case), equity_losses(in_package(case))
    if correlation == DEFAULT_EQUITY_CORRELATION:
        return None
    return joined(losses, DEFAULT_EQUITY_CORRELATION), joined(losses, correlation)


def joined(losses: list[int], correlation: int) -> Ends:
    """S2 of losses in tenths of a cent: one root, rounded down and up to a cent. At 1,000 thousandths it is their sum."""
    squares = sum(loss ** 2 for loss in losses)
    pairs_twice = sum(losses) ** 2 - squares  # each product of two of them, twice
    radicand = 1_000 * squares + correlation * pairs_twice
    lower = isqrt(radicand // 100_000)  # 1,000 of the correlation, and 10² of the tenths
    return lower, lower + (100_000 * lower ** 2 < radicand)
