"""The entries of a point: its part of a list of tag 4 fields, and the check beside it."""

from typing import NamedTuple

from bounds import NAME, SIDE
from dayformat import ENTRY, FORMS, HEADER, read_field
from dayrows import is_bounded, is_rising
from refusals import Refusal, require, require_figures

RECEIPT = 0
FIELD = HEADER + FORMS[ENTRY].length


class Part(NamedTuple):
    """The bytes from start up to end of the receipt list (0) or of the delivery list (1)."""

    side: int
    start: int
    end: int


def read_entries(entries, side):
    """A run of tag 4 fields of one side, tested as a file's fields are; names aren't looked up."""
    tables, at = {ENTRY: []}, 0
    rows = tables[ENTRY]
    while at < len(entries):
        _, row, end = read_field(entries, at, (ENTRY,))
        rows.append(row)
        index = len(rows) - 1
        require(is_bounded(tables, ENTRY, index) and row[0] == side, 3, at)
        require(is_rising(tables, ENTRY, index), 5, at)
        at = end
    return rows


def check_entries(receipt, delivery, side, point):
    """The refusal for these arguments, or None; a point that is only lacking is no refusal."""
    try:
        require_figures(SIDE, side)
        require_figures(NAME, point)
        read_entries((receipt, delivery)[side], side)
    except Refusal as refusal:
        return refusal
    return None


def entries_of_point(receipt, delivery, side, point):
    """The point's part of the asked list; where refused or lacking, the empty part at its end."""
    if side not in SIDE:
        return Part(RECEIPT, len(receipt), len(receipt))
    asked = (receipt, delivery)[side]
    if check_entries(receipt, delivery, side, point) is None:
        points = [row[1] for row in read_entries(asked, side)]
        if point in points:
            start = points.index(point) * FIELD
            return Part(side, start, start + points.count(point) * FIELD)
    return Part(side, len(asked), len(asked))
