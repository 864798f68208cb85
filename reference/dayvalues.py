"""A day's numbers by what they are: the rows of its tables, and the columns of its shippers.

A day in memory is the counts of its tables and one block of numbers, as in dayfile.py. Counts,
row and place may be any; a tag is one of the tables'.
"""

from typing import NamedTuple

from dayfile import TABLES, block_size, require_counted
from dayformat import FORMS, POINT, SHIPPER
from dayrows import numbers_are_bounded
from refusals import require, require_room, require_rows

# Where a shipper's row has its gigajoules: firm and auction MDQ; firm, auction and lower tier
# schedules.
SHIPPER_COLUMNS = range(1, 6)


class Point(NamedTuple):
    side: int
    point: int
    capacity: int


def number_at(counts, numbers, tag, row, place):
    """The number at a place of a row, 0 past the list."""
    start = block_size(counts[: TABLES.index(tag)])
    at = start + row * len(FORMS[tag].columns) + place
    return numbers[at] if at < len(numbers) else 0


def row_at(counts, numbers, tag, row):
    """A row's numbers, tested row by row: another row's fault is no fault of this one."""
    require_counted(counts, numbers)
    require(row < counts[TABLES.index(tag)], 3)
    places = range(len(FORMS[tag].columns))
    found = [number_at(counts, numbers, tag, row, place) for place in places]
    require(numbers_are_bounded(tag, found), 3, row)
    return found


def shipper_at(counts, numbers, row):
    return row_at(counts, numbers, SHIPPER, row)[0]


def point_at(counts, numbers, row):
    return Point(*row_at(counts, numbers, POINT, row))


def column_of(counts, numbers, place):
    """Each shipper's number at a place of its row, untested."""
    return [number_at(counts, numbers, SHIPPER, row, place) for row in range(counts.shippers)]


def shipper_column(counts, numbers, place, room=None):
    """A column of gigajoules, tested as a list is; room is how many rows are lent."""
    require_counted(counts, numbers)
    column = column_of(counts, numbers, place)
    require_rows(FORMS[SHIPPER].columns[place].bound, column)
    require_room(len(column), room)
    return column
