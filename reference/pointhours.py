"""An hour at a point as lines, from its part of a file and the numbers of a day that lists its
shippers."""

from bounds import ENTRIES
from dayformat import ENTRY, FORMS, HEADER, decode
from dayvalues import column_of
from listings import lines, point_rows
from pointentries import FIELD


def entries_in(part):
    """A run of tag 4 fields, untested: the whole ones, of a longer run as many as a file has."""
    starts = range(0, len(part) - FIELD + 1, FIELD)[: ENTRIES[-1]]
    return [decode(FORMS[ENTRY], part[at + HEADER : at + FIELD]) for at in starts]


def hour_text(counts, numbers, part, capacity):
    """A line of shipper and share for each entry, or the line of the hour's refusal."""
    names, mdqs = (column_of(counts, numbers, place) for place in (0, 1))
    return lines(point_rows(capacity, entries_in(part), dict(zip(names, mdqs))))


def put_hour(counts, numbers, part, capacity, block, at):
    """How many bytes the lines have, and the block with them from a byte on; what lies past its
    end is dropped."""
    text = hour_text(counts, numbers, part, capacity).encode()
    laid = block[:at] + text + block[at + len(text) :]
    return len(text), laid[: len(block)]
