"""Cases of the columns of a day in memory, and of the shares from its numbers."""

from bounds import GIGAJOULES
from cases import MOST_ROWS, WORD, Figure, put, some_room, wide
from dayfile import day_of, tables_of
from dayformat import ENTRY, EXCUSED, FORMS, HEAD, METER, POINT, SHIPPER
from days import excused_gas, full_day, make_day
from dayvalues import SHIPPER_COLUMNS, shipper_column
from filecases import NUMBERS
from numberfaults import limits, miscounted, padded, row_edits, some_edited
from numbershares import share_numbers
from rowfaults import SEVERAL, Edit, edited
from sharecases import some_day as some_table
from valuecases import InMemory, Lent, ValueRoutine

GREATEST = GIGAJOULES[-1]

SHIPPERS_ALONE = {**SEVERAL, POINT: [], ENTRY: [], METER: []}


def answer_check(day, place, room):
    shipper_column(day.counts, day.numbers, place, room)
    return [], []


def answer_column(day, place, room):
    column = shipper_column(day.counts, day.numbers, place, room)
    return [len(column)], [column]


def every_column(day):
    return [[day, place, day.counts.shippers] for place in SHIPPER_COLUMNS]


def faulty_columns():
    """Numbers of a row at their bounds and beyond, in the column that is asked for; two rows at
    fault, and another column; and names, which no column has."""
    own = [edit for edit in row_edits(SHIPPER, 1) if edit.column > 0]
    two = [Edit(SHIPPER, 1, 3, GREATEST + 1), Edit(SHIPPER, 2, 3, GREATEST + 1)]
    another = Edit(SHIPPER, 0, 2, GREATEST + 1)
    names = [Edit(SHIPPER, 1, 0, name) for name in (0, 65_536)]
    return [
        *([day_of(edited(SEVERAL, edit)), edit.column, 3] for edit in own),
        *every_column(day_of(edited(SEVERAL, *two, another))),
        *([day_of(edited(SEVERAL, name)), 1, 3] for name in names),
    ]


def limit_columns():
    """63, 64 and 65 shippers, with room for every row and for all but one; and the other tables'
    most rows, and one more."""
    days = [padded(SHIPPERS_ALONE, SHIPPER, 63), *limits(SHIPPERS_ALONE)]
    return [
        *([day, 1, day.counts.shippers - 1] for day in days[:3]),
        *([day, index % 5 + 1, day.counts.shippers] for index, day in enumerate(days)),
    ]


def column_cases(chance):
    several = day_of(SEVERAL)
    beyond = day_of(edited(SEVERAL, Edit(SHIPPER, 2, 5, GREATEST + 1)))
    return [
        *every_column(several),
        *every_column(make_day())[:2],
        *([several, 5, room] for room in (0, 2, 4, MOST_ROWS)),
        [beyond, 5, 2],
        *faulty_columns(),
        *limit_columns(),
        *([day, index % 5 + 1, 3] for index, day in enumerate(miscounted(several))),
        *(
            [some_edited(chance, SHIPPER), chance.choice(SHIPPER_COLUMNS), chance.randint(0, 6)]
            for _ in range(8)
        ),
    ]


def check_cases(chance):
    """The same, and rooms that no list has."""
    several = day_of(SEVERAL)
    return [*column_cases(chance), *([several, 1, room] for room in (2**32 + 2, 2**64 - 1))]


def answer_shares(day, *rooms):
    shares = share_numbers(day, rooms)
    figures = [*shares.levels, *shares.totals, shares.left]
    return figures, [shares.firm, shares.auction, shares.lower_tier]


# 01's figures.
FIGURES = [
    make_day((1, 300, 100), [(7, 400, 0, 400, 0, 0), (9, 200, 0, 60, 0, 0)]),
    make_day((1, 10, 0), [(name, 4, 0, 4, 0, 0) for name in (1, 2, 3)]),
    make_day((1, 300, 100), [(1, 400, 100, 100, 200, 0), (2, 0, 300, 0, 300, 0)]),
]


def shared_day(chance, rows):
    """A day whose shippers share: some classes full, the next one short."""
    free_flow, compressor, _, _, _, *lists = some_table(chance, rows)
    return make_day((1, free_flow, compressor), list(zip(range(1, rows + 1), *lists)))


def full_of_shippers():
    """A full day whose other tables are of zeros."""
    full = full_day()
    held = full.counts.shippers * len(FORMS[SHIPPER].columns)
    return full._replace(numbers=[*full.numbers[:held], *[0] * (len(full.numbers) - held)])


def with_capacities(tables, free_flow, compressor):
    return day_of({**tables, HEAD: [(20_190_612, free_flow, compressor)]})


def other_capacities():
    """Both capacities at their bound and beyond it: of a sound day, of one with a row beyond its
    bound in each column, of one with a schedule and no MDQ, and of one with a shipper too many."""
    columns = [edited(SEVERAL, Edit(SHIPPER, 1, place, GREATEST + 1)) for place in SHIPPER_COLUMNS]
    no_mdq = edited(SEVERAL, Edit(SHIPPER, 1, 1, 0))
    too_many = tables_of(padded(SHIPPERS_ALONE, SHIPPER, 65))
    pairs = [(GREATEST, GREATEST), (GREATEST + 1, 0), (0, GREATEST + 1), (WORD[-1], WORD[-1])]
    return [
        *(with_capacities(tables, *pair) for tables in (SEVERAL, columns[0]) for pair in pairs),
        *(with_capacities(tables, GREATEST, GREATEST + 1) for tables in columns[1:]),
        *(with_capacities(tables, GREATEST + 1, GREATEST) for tables in (no_mdq, too_many)),
    ]


# Two columns at fault, of which the earlier has the later row; a column, and a schedule without its
# MDQ; and schedules without their MDQ, of which the firm one has the later row.
ORDERS = [
    *(
        [Edit(SHIPPER, 2, place, GREATEST + 1), Edit(SHIPPER, 0, place + 1, GREATEST + 1)]
        for place in SHIPPER_COLUMNS[:-1]
    ),
    [Edit(SHIPPER, 2, 5, GREATEST + 1), Edit(SHIPPER, 0, 1, 0)],
    [Edit(SHIPPER, 2, 1, 0), Edit(SHIPPER, 0, 2, 0)],
    [Edit(SHIPPER, 2, 1, 0), Edit(SHIPPER, 0, 1, 0)],
    [Edit(SHIPPER, 2, 2, 0), Edit(SHIPPER, 0, 2, 0)],
]

# Names and other tables' numbers, which the shares don't look at.
ELSEWHERE = [
    Edit(SHIPPER, 0, 0, 0),
    Edit(SHIPPER, 2, 0, 65_536),
    Edit(POINT, 0, 0, 2),
    Edit(ENTRY, 3, 3, 100_000_001),
]


def faulty_shares():
    edits = [*([edit] for edit in (*row_edits(SHIPPER, 1), *ELSEWHERE)), *ORDERS]
    beyond = with_capacities(SEVERAL, GREATEST + 1, 0)
    # nor do they look at excused gas
    excused = {**SHIPPERS_ALONE, EXCUSED: [excused_gas(0, 2**32, 1)]}
    return [
        *(day_of(edited(SEVERAL, *some)) for some in edits),
        day_of(excused),
        *miscounted(day_of(SEVERAL)),
        beyond._replace(numbers=beyond.numbers[:-1]),
    ]


def shares_cases(chance):
    several = day_of(SEVERAL)
    no_mdq = day_of(edited(SEVERAL, Edit(SHIPPER, 0, 1, 0)))
    sound = [*FIGURES, *(shared_day(chance, rows) for rows in (3, 0, 1, 2, 4, 5, 8, 20, 64))]
    rooms = [put([3, 3, 3], index, room) for index in range(3) for room in (0, 2, 4, MOST_ROWS)]
    return [
        *([day, *(some_room(chance, day.counts.shippers) for _ in range(3))] for day in sound),
        [full_of_shippers(), 64, 65, 64],
        *([several, *some] for some in rooms),
        [no_mdq, 2, 2, 2],
        *([day, 3, 3, 3] for day in (*other_capacities(), *faulty_shares())),
        *([day, 64, 64, 64] for day in limits(SHIPPERS_ALONE)),
    ]


PLACE = Figure(SHIPPER_COLUMNS)

ROUTINES = (
    ValueRoutine(
        "check_column", (InMemory(), PLACE, Figure(WORD, wide)), answer_check, check_cases
    ),
    ValueRoutine(
        "shipper_column", (InMemory(), PLACE, Lent(NUMBERS)), answer_column, column_cases
    ),
    ValueRoutine(
        "share_numbers", (InMemory(), *[Lent(NUMBERS)] * 3), answer_shares, shares_cases
    ),
)
