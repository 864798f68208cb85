"""A day's shares from its numbers."""

from dayfile import require_counted
from dayshares import share_day
from dayvalues import SHIPPER_COLUMNS, column_of


def share_numbers(day, rooms=(None, None, None)):
    """Its numbers are as many as its counts say, and no count is beyond its bound; then what its
    capacities and its shippers' columns give. Names and the other tables aren't looked at."""
    require_counted(day.counts, day.numbers)
    lists = [column_of(day.counts, day.numbers, place) for place in SHIPPER_COLUMNS]
    return share_day(day.head.free_flow, day.head.compressor, *lists, rooms=rooms)
