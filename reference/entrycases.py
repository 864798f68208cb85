"""Cases of the entries of a point and of the check beside them."""

from bounds import up_to
from cases import Figure, put
from dayformat import ENTRY, write_field
from filecases import Bytes, FileRoutine
from filefaults import broken_files, cuts, noise
from pointentries import check_entries, entries_of_point
from rowfaults import Edit, edges_of, edited

RECEIPT, DELIVERY = 0, 1

# Each entry has an RE of its own, so that the part's bytes tell where it stands.
ROWS = (
    [(0, 3, 7, 1), (0, 3, 9, 2), (0, 5, 7, 3), (0, 6, 1, 4), (0, 6, 9, 5)],
    [(1, 3, 8, 6), (1, 4, 8, 7), (1, 4, 65_535, 8), (1, 65_535, 1, 9)],
)

# The asked list's rows: keys equal and falling, the other side, and two of these at once.
FAULTS = [
    *edges_of(ENTRY),
    Edit(ENTRY, 1, 2, 7),
    Edit(ENTRY, 1, 1, 2),
    Edit(ENTRY, 2, 0, 1),
    Edit(ENTRY, 3, 0, 1),
    Edit(ENTRY, 3, 3, 100_000_001),
    Edit(ENTRY, 3, 2, 0),
    Edit(ENTRY, 3, 1, 1),
]


def list_of(rows):
    return b"".join(write_field(ENTRY, row) for row in rows)


LISTS = [list_of(rows) for rows in ROWS]


def asking(side, point, entries):
    """A case in which the asked list is this one."""
    return [side, point, *put(LISTS, side, entries)]


def answer_check(side, point, receipt, delivery):
    refusal = check_entries(receipt, delivery, side, point)
    if refusal is not None:
        raise refusal
    return [], []


def answer_part(side, point, receipt, delivery):
    part = entries_of_point(receipt, delivery, side, point)
    given = (receipt, delivery)[part.side][part.start : part.end]
    return [len(given)], [":" + given.hex()]


def edited_lists(chance):
    tables = {ENTRY: ROWS[RECEIPT]}
    edits = [[fault] for fault in FAULTS]
    edits.extend(chance.sample(FAULTS, 2) for _ in range(10))
    return [list_of(edited(tables, *some)[ENTRY]) for some in edits]


def many_entries(count):
    """So many entries, of which the last five are point 3's."""
    return list_of([(0, 2 + (name > count - 5), name, name) for name in range(1, count + 1)])


def asked_cases():
    """Every kind of side and point; empty lists; and lists of which only the asked one is sound."""
    receipt, delivery = LISTS
    cut = b"\x04"
    return [
        *([side, point, *LISTS] for side in (0, 1, 2, 255) for point in (0, 3, 4, 5, 6, 7, 65_535)),
        *([side, point, cut, cut] for side in (0, 1, 2) for point in (0, 3)),
        *([side, 3, b"", b""] for side in (0, 1, 2)),
        [DELIVERY, 4, b"", delivery],
        [RECEIPT, 5, receipt, b""],
        [RECEIPT, 5, receipt, delivery[:-1]],
        [DELIVERY, 4, receipt[:-1], delivery],
        [DELIVERY, 4, delivery, receipt],
    ]


def entry_cases(chance):
    receipt, delivery = LISTS
    fields = [write_field(ENTRY, row) for row in ROWS[RECEIPT][:2]]
    receipts = [
        *edited_lists(chance),
        *cuts(b"".join(fields)),
        *broken_files(fields),
        *(noise(chance, receipt) for _ in range(10)),
        many_entries(512),
        many_entries(513),
    ]
    deliveries = (delivery[:-1], delivery * 2, receipt, delivery + receipt)
    return [
        *asked_cases(),
        *(asking(RECEIPT, 3, entries) for entries in receipts),
        *(asking(DELIVERY, 4, entries) for entries in deliveries),
    ]


FIELDS = (Figure(up_to(255)), Figure(up_to(65_535)), Bytes(), Bytes())

ROUTINES = (
    FileRoutine("check_entries", FIELDS, answer_check, entry_cases, None),
    FileRoutine("entries_of_point", FIELDS, answer_part, entry_cases, None),
)
