"""The day file: reader and writer.

A day in memory is its head, the counts of its tables, and one block of numbers: the rows of all
tables one after another in file order.
"""

from typing import NamedTuple

from dayformat import (
    ENTRY,
    EXCUSED,
    FORMS,
    HEAD,
    HEADER,
    METER,
    POINT,
    SHIPPER,
    read_field,
    write_field,
)
from dayrows import ROW_TESTS, numbers_are_bounded
from refusals import require, require_figures, require_room

TABLES = (SHIPPER, POINT, ENTRY, METER, EXCUSED)


class Head(NamedTuple):
    day: int
    free_flow: int
    compressor: int


class Counts(NamedTuple):
    shippers: int
    points: int
    entries: int
    meters: int
    excused: int


class Day(NamedTuple):
    head: Head
    counts: Counts
    numbers: list


def block_size(counts):
    """How many numbers the rows of all tables hold."""
    return sum(count * len(FORMS[tag].columns) for tag, count in zip(TABLES, counts))


def file_size(counts):
    """How many bytes the file has: the head's field and one field a row."""
    return sum(
        count * (HEADER + FORMS[tag].length) for tag, count in zip((HEAD, *TABLES), (1, *counts))
    )


def tables_of(day):
    """The day's rows for each tag."""
    tables, at = {HEAD: [day.head]}, 0
    for tag, count in zip(TABLES, day.counts):
        width = len(FORMS[tag].columns)
        end = at + count * width
        tables[tag] = [tuple(day.numbers[row : row + width]) for row in range(at, end, width)]
        at = end
    return tables


def day_of(tables):
    """The day that has these rows for each tag."""
    return Day(
        Head(*tables[HEAD][0]),
        Counts(*(len(tables[tag]) for tag in TABLES)),
        [number for tag in TABLES for row in tables[tag] for number in row],
    )


def read_day(file, room=None):
    """The first faulty field is refused; room is how many numbers are lent."""
    tables = {tag: [] for tag in FORMS}
    at, tags = 0, (HEAD,)
    while at < len(file) or not tables[HEAD]:
        tag, row, end = read_field(file, at, tags)
        tables[tag].append(row)
        for number, is_kept in ROW_TESTS:
            require(is_kept(tables, tag, len(tables[tag]) - 1), number, at)
        at, tags = end, [later for later in TABLES if later >= tag]
    day = day_of(tables)
    require_room(len(day.numbers), room)
    return day


def require_counted(counts, numbers):
    """As many numbers as the counts say, and no count beyond its bound."""
    require(len(numbers) == block_size(counts), 9)
    for tag, count in zip(TABLES, counts):
        require_figures(FORMS[tag].count, count)


def write_day(day, room=None):
    """Refuses number by number over all tables; room is how many bytes are lent."""
    require_counted(day.counts, day.numbers)
    require(numbers_are_bounded(HEAD, day.head), 3)
    tables = tables_of(day)
    for number, is_kept in ROW_TESTS:
        for tag in TABLES:
            for index in range(len(tables[tag])):
                require(is_kept(tables, tag, index), number, index)
    require_room(file_size(day.counts), room)
    return b"".join(write_field(tag, row) for tag in FORMS for row in tables[tag])
