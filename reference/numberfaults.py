"""Faults of a day in memory: its counts, its list's length, and numbers beyond their bounds."""

from cases import put
from daycases import other_numbers
from dayfile import TABLES, Counts, day_of, tables_of
from dayformat import EXCUSED, FORMS, METER
from days import some_day
from rowfaults import Edit, edited


def edges(bound):
    """At each bound and one beyond it; no number is below zero."""
    least = (bound[0] - 1, bound[0]) if bound[0] > 0 else ()
    return [*least, bound[-1], bound[-1] + 1]


# The ends of each list of a meter's figures, and of excused hours.
LIST_ENDS = {
    METER: (0, 1, 2, 3, 13, 14, 37, 38, 61, 62, 65, 66, 67),
    EXCUSED: (0, 1, 11, 12, 35, 36, 59),
}


def row_edits(tag, row):
    """Each number of a row at its bounds and beyond them, of lists of hours the first and the last;
    and numbers whose lowest 32 bits would pass."""
    columns = FORMS[tag].columns
    places = LIST_ENDS.get(tag, range(len(columns)))
    first, *_, last = places
    return [
        *(Edit(tag, row, place, edge) for place in places for edge in edges(columns[place].bound)),
        Edit(tag, row, first, 2**32 + 1),
        Edit(tag, row, last, 2**32),
        Edit(tag, row, last, 2**64 - 1),
    ]


def padded(tables, tag, count):
    """A day whose table has so many rows, those past its own of zeros alone."""
    zeros = (0,) * len(FORMS[tag].columns)
    return day_of({**tables, tag: [*tables[tag], *[zeros] * (count - len(tables[tag]))]})


def limits(tables):
    """One table has as many rows as there may be, or one more."""
    return [padded(tables, tag, FORMS[tag].count[-1] + more) for tag in TABLES for more in (0, 1)]


def miscounted(day):
    """Lists that are not as long as the counts say, and counts that no list is long enough for."""
    counts = [Counts(*put(day.counts, index, 2**32 - 1)) for index in range(len(TABLES))]
    return [*other_numbers(day), *(day._replace(counts=other) for other in counts)]


def some_edited(chance, tag):
    """A day by chance, every other one with a number of a table at a bound or beyond it."""
    day = some_day(chance)
    tables = tables_of(day)
    if not tables[tag] or chance.randrange(2):
        return day
    place = chance.randrange(len(FORMS[tag].columns))
    number = chance.choice(edges(FORMS[tag].columns[place].bound))
    return day_of(edited(tables, Edit(tag, chance.randrange(len(tables[tag])), place, number)))
