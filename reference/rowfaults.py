"""Sound days of few rows, and faults of their rows: numbers changed, and rows too many."""

from typing import NamedTuple

from cases import put
from dayformat import ENTRY, EXCUSED, FORMS, HEAD, METER, POINT, SHIPPER
from days import excused_gas, meter

# A day is its rows for each tag. Several of each but meters and excused gas:
SEVERAL = {
    HEAD: [(1, 300, 100)],
    SHIPPER: [(7, 400, 50, 300, 20, 10), (9, 200, 0, 60, 0, 0), (258, 1, 1, 1, 1, 1)],
    POINT: [(0, 3, 9_000), (0, 5, 6_000), (1, 3, 5_000)],
    ENTRY: [(0, 3, 7, 4_000), (0, 3, 9, 2_000), (0, 5, 7, 10), (1, 3, 9, 1_000)],
    METER: [],
    EXCUSED: [],
}

# One meter:
METERED = {
    HEAD: [(0, 1, 0)],
    SHIPPER: [(7, 1, 0, 0, 0, 0)],
    POINT: [],
    ENTRY: [],
    METER: [meter(7, 1_000, 2_000, 3, 4, (5, 6, 7, 8), (9, 10))],
    EXCUSED: [],
}

# Excused gas for that meter, and a shipper without one; and two fields, the first of zeros, for two
# meters, of which the later has the lesser hours:
REPROFILED = {
    **METERED,
    SHIPPER: [(7, 1, 0, 0, 0, 0), (8, 1, 0, 0, 0, 0)],
    EXCUSED: [excused_gas(7, 2, 3)],
}
TWO_REPROFILED = {
    **REPROFILED,
    METER: [meter(7, delivered=3, received=3), meter(8, delivered=2, received=2)],
    EXCUSED: [excused_gas(7), excused_gas(8, 2, 2)],
}

WHOLE = {**SEVERAL, METER: METERED[METER]}
ONE_EACH = {tag: rows[:1] for tag, rows in SEVERAL.items()}


class Edit(NamedTuple):
    """A number put in place of a row's."""

    tag: int
    row: int
    column: int
    number: int


def edited(tables, *edits):
    for tag, row, column, number in edits:
        rows = tables[tag]
        tables = {**tables, tag: put(rows, row, tuple(put(rows[row], column, number)))}
    return tables


def edges(column):
    """At each bound and one beyond it, as far as the column's bytes can spell it."""
    least, greatest, largest = column.bound[0], column.bound[-1], 256**column.width - 1
    numbers = {least - 1, least, greatest, greatest + 1, largest}
    return sorted(number for number in numbers if 0 <= number <= largest)


def edges_of(tag):
    return [
        Edit(tag, 0, index, number)
        for index, column in enumerate(FORMS[tag].columns)
        for number in edges(column)
    ]


BOUNDS = [edit for tag in (HEAD, SHIPPER, POINT, ENTRY) for edit in edges_of(tag)]

# The ends of each list of a meter's figures, at the greatest and one beyond; shippers 0 and 8.
METERS = [
    *(
        Edit(METER, 0, index, FORMS[METER].columns[index].bound[-1] + beyond)
        for index in (1, 2, 3, 13, 14, 37, 38, 61, 62, 65, 66, 67)
        for beyond in (0, 1)
    ),
    Edit(METER, 0, 0, 0),
    Edit(METER, 0, 0, 8),
]

# The first, a middle and the last hour of each list of excused gas, one above the metered hour; and
# shipper 0.
EXCUSED_EDITS = [
    *(
        Edit(EXCUSED, 0, index, METERED[METER][0][2 + index] + 1)
        for index in (1, 6, 11, 12, 24, 35, 36, 48, 59)
    ),
    Edit(EXCUSED, 0, 0, 0),
]

MOST_EXCUSED = FORMS[EXCUSED].columns[-1].bound[-1]

# A shipper without a meter, whatever is excused; a field of zeros, all that was metered, and the
# greatest number.
REPROFILINGS = [
    [excused_gas(8)],
    [excused_gas(8, MOST_EXCUSED, MOST_EXCUSED)],
    [excused_gas(0, MOST_EXCUSED, MOST_EXCUSED)],
    [excused_gas(7)],
    [excused_gas(7, 3, 4)],
    [excused_gas(7, 0, MOST_EXCUSED)],
]

# Of two fields: keys equal, with more than was metered too; keys falling; all that the other
# shipper's meter has; and the later meter alone.
TWO_REPROFILINGS = [
    [excused_gas(7, 3, 3), excused_gas(7)],
    [excused_gas(7, 3, 3), excused_gas(7, 4, 3)],
    [excused_gas(8, 2, 2), excused_gas(7, 3, 3)],
    [excused_gas(7), excused_gas(8, 3, 2)],
    [excused_gas(8, 2, 2)],
]

KEYS = [
    Edit(SHIPPER, 1, 0, 7),
    Edit(SHIPPER, 2, 0, 8),
    Edit(POINT, 1, 1, 3),
    Edit(POINT, 1, 1, 2),
    Edit(POINT, 2, 0, 0),
    Edit(ENTRY, 1, 2, 7),
    Edit(ENTRY, 2, 1, 3),
    Edit(ENTRY, 3, 0, 0),
]

# A shipper, a point and a side that are not listed.
NAMES = [Edit(ENTRY, 1, 2, 8), Edit(ENTRY, 2, 1, 4), Edit(ENTRY, 2, 0, 1)]

# Schedules without their MDQ.
MDQS = [Edit(SHIPPER, 1, 1, 0), Edit(SHIPPER, 0, 2, 0), Edit(SHIPPER, 1, 4, 1)]

EDITS = [*BOUNDS, *KEYS, *NAMES, *MDQS]

# Two faults of a row, and faults of two rows, of which the later has the number that comes first.
TOGETHER = [
    (Edit(SHIPPER, 1, 0, 7), Edit(SHIPPER, 1, 1, 0)),
    (Edit(SHIPPER, 1, 0, 7), Edit(SHIPPER, 1, 5, 1_000_001)),
    (Edit(SHIPPER, 1, 1, 0), Edit(SHIPPER, 1, 5, 1_000_001)),
    (Edit(SHIPPER, 0, 2, 0), Edit(METER, 0, 0, 8)),
    (Edit(SHIPPER, 0, 2, 0), Edit(METER, 0, 3, 100_000_001)),
    (Edit(POINT, 1, 1, 3), Edit(METER, 0, 3, 100_000_001)),
    (Edit(HEAD, 0, 1, 1_000_001), Edit(SHIPPER, 1, 1, 1_000_001)),
]

# The same with excused gas: after 4, after 5, after 3, and where the meter is another shipper's.
EXCUSED_TOGETHER = [
    (Edit(SHIPPER, 0, 3, 1), Edit(SHIPPER, 0, 1, 0), Edit(EXCUSED, 0, 59, 5)),
    (Edit(SHIPPER, 0, 0, 8), Edit(EXCUSED, 0, 1, 4)),
    (Edit(SHIPPER, 0, 3, 1), Edit(SHIPPER, 0, 1, 0), Edit(EXCUSED, 0, 0, 8)),
    (Edit(METER, 0, 3, 100_000_001), Edit(EXCUSED, 0, 0, 0)),
    (Edit(METER, 0, 0, 8), Edit(EXCUSED, 0, 1, 4)),
]


def edited_tables(chance):
    """Each fault alone, then some at once so that their order shows."""
    several = [chance.sample([*EDITS, *METERS], count) for count in [2] * 30 + [3] * 10]
    excused = [chance.sample([*METERS, *EXCUSED_EDITS], 2) for _ in range(6)]
    return [
        *(edited(SEVERAL, edit) for edit in EDITS),
        *(edited(METERED, edit) for edit in METERS),
        *(edited(REPROFILED, edit) for edit in EXCUSED_EDITS),
        *({**REPROFILED, EXCUSED: rows} for rows in REPROFILINGS),
        *({**TWO_REPROFILED, EXCUSED: rows} for rows in TWO_REPROFILINGS),
        *(edited(WHOLE, *edits) for edits in (*TOGETHER, *several)),
        *(edited(REPROFILED, *edits) for edits in (*EXCUSED_TOGETHER, *excused)),
    ]


def too_many_tables():
    """One row more than a tag may have."""
    shippers = [(name, 1, 1, 0, 0, 0) for name in range(1, 66)]
    points = [(0, point, 1) for point in range(1, 34)]
    entries = [(0, point[1], shipper[0], 0) for point in points for shipper in shippers[:20]]
    meters = [meter(name) for name in range(1, 66)]
    excused = [excused_gas(name) for name in range(1, 66)]
    none = {**SEVERAL, SHIPPER: [], POINT: [], ENTRY: [], METER: []}
    return [
        {**none, SHIPPER: shippers},
        {**none, POINT: points},
        {**none, SHIPPER: shippers[:20], POINT: points[:26], ENTRY: entries[:513]},
        {**none, SHIPPER: shippers[:64], METER: meters},
        {**none, SHIPPER: shippers[:64], METER: meters[:64], EXCUSED: excused},
    ]
