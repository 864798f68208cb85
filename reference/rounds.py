"""One sharing round: 01's house rule for "pro-rata" (cl. 3.2, 3.4)."""

from typing import NamedTuple

from bounds import GIGAJOULES, ROUND_CAPACITY, SHIPPERS
from refusals import require_equal_lengths, require_figures, require_room, require_rows

LEVEL_UNIT = 1_000_000
GREATEST_LEVEL = 1_000_000_000_000


class Round(NamedTuple):
    level: int
    shares: list


def share(weight, need, level):
    return min(need, weight * level // LEVEL_UNIT)


def shares_at(weights, needs, level):
    return [share(weight, need, level) for weight, need in zip(weights, needs)]


def largest_level(capacity, weights, needs):
    """The largest level whose shares add up to at most the capacity."""
    fits, beyond = 0, GREATEST_LEVEL + 1
    while fits + 1 < beyond:
        middle = (fits + beyond) // 2
        if sum(shares_at(weights, needs, middle)) <= capacity:
            fits = middle
        else:
            beyond = middle
    return fits


def hold_round(capacity, weights, needs):
    level = largest_level(capacity, weights, needs)
    return Round(level, shares_at(weights, needs, level))


def round_not_held(rows):
    return Round(0, [0] * rows)


def one_round(capacity, weights, needs, room=None):
    """A round called alone."""
    require_equal_lengths(weights, needs)
    require_figures(ROUND_CAPACITY, capacity)
    require_figures(SHIPPERS, len(weights))
    require_rows(GIGAJOULES, weights)
    require_rows(GIGAJOULES, needs)
    require_room(len(weights), room)
    return hold_round(capacity, weights, needs)
