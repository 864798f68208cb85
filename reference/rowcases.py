"""Cases of the rows of a day in memory: a number, a row's tests, a shipper, a point."""

from cases import WORD, Figure
from dayfile import TABLES, Counts, day_of, tables_of
from dayformat import ENTRY, EXCUSED, FORMS, METER, POINT, SHIPPER
from dayvalues import number_at, point_at, row_at, shipper_at
from numberfaults import limits, miscounted, padded, row_edits, some_edited
from rowfaults import SEVERAL, edited
from valuecases import InMemory, ValueRoutine

# Two meters, and no number of one is another.
METERS = [(7, *range(101, 168)), (9, *range(201, 268))]
METERED = {**SEVERAL, POINT: [], ENTRY: [], METER: METERS}

# Two rows of excused hours, beside a point but no meter: a row is tested alone.
REPROFILED = {
    **SEVERAL,
    POINT: SEVERAL[POINT][:1],
    ENTRY: [],
    EXCUSED: [(7, *range(301, 360)), (9, *range(401, 460))],
}


def tables_for(tag):
    """A day with several rows of a tag."""
    return {METER: METERED, EXCUSED: REPROFILED}.get(tag, SEVERAL)


def asked_rows(tag):
    """Each row, and those past the last."""
    tables = tables_for(tag)
    rows = len(tables[tag])
    return [[day_of(tables), row] for row in (*range(rows + 2), WORD[-1])]


def faulty_rows(tag):
    """A row's number at its bounds and beyond; the last of these faults with another row asked."""
    days = [day_of(edited(tables_for(tag), edit)) for edit in row_edits(tag, 1)]
    return [*([day, 1] for day in days), [days[-1], 0]]


def miscounted_rows(tag):
    """9, alone and before each 3."""
    tables = tables_for(tag)
    too_many = padded(tables, tag, FORMS[tag].count[-1] + 1)
    return [
        *([day, 0] for day in miscounted(day_of(tables))),
        *([day, WORD[-1]] for day in miscounted(day_of(tables))[:2]),
        [too_many._replace(numbers=[*too_many.numbers, 0]), 1],
    ]


def limit_rows(tag):
    """A row of zeros beside as many rows as a table may have, where the row is refused, or one
    more, where the count is; and rows of a table that has so many itself."""
    none = {**SEVERAL, **{other: [] for other in TABLES}}
    zeros = tables_of(padded(none, tag, 2))
    sound = {**none, tag: tables_for(tag)[tag][:2]}
    most = FORMS[tag].count[-1]
    own = [(1, most), (most - 1, most), (most, most), (1, most + 1)]
    return [
        *([day, 1] for day in limits(zeros)),
        *([padded(sound, tag, rows), row] for row, rows in own),
    ]


def some_rows(chance, tag, count):
    days = [some_edited(chance, tag) for _ in range(count)]
    return [[day, chance.randint(0, day.counts[TABLES.index(tag)])] for day in days]


def row_cases(tag, chance):
    faults = [*faulty_rows(tag), *miscounted_rows(tag)]
    return [
        *asked_rows(tag),
        *limit_rows(tag),
        *chance.sample(faults, 12),
        *some_rows(chance, tag, 4),
    ]


def answer_number(day, tag, row, place):
    return [number_at(day.counts, day.numbers, tag, row, place)], []


def number_cases(chance):
    """Numbers of each table, those past a row's end and past the list's; and counts by chance, that
    say nothing of the list's length."""
    several, metered = day_of(SEVERAL), day_of(METERED)
    reprofiled = day_of({**METERED, METER: METERS[:1], EXCUSED: REPROFILED[EXCUSED]})
    asked = [(0, 0), (1, 2), (2, 1), (3, 5), (WORD[-1], 0), (0, WORD[-1])]
    greatest = several._replace(counts=Counts(*[WORD[-1] for _ in TABLES]))
    counted = [Counts(*(chance.randint(0, 2) for _ in TABLES)) for _ in TABLES]
    return [
        *([several, tag, *place] for tag in TABLES for place in asked),
        *([metered, METER, *place] for place in ((0, 0), (0, 67), (1, 3), (1, 67), (1, 68))),
        *([reprofiled, EXCUSED, *place] for place in ((0, 0), (0, 59), (1, 1), (1, 59), (1, 60))),
        *([greatest, tag, WORD[-1], WORD[-1]] for tag in TABLES),
        *(
            [several._replace(counts=counts), tag, chance.randint(0, 3), chance.randint(0, 3)]
            for tag, counts in zip(TABLES, counted)
        ),
        [day_of(edited(SEVERAL, row_edits(SHIPPER, 0)[-1])), SHIPPER, 0, 5],
    ]


def answer_check(day, tag, row):
    row_at(day.counts, day.numbers, tag, row)
    return [], []


def check_cases(chance):
    """The cases of every table, with all faults of its rows."""
    return [
        [day, tag, row]
        for tag in TABLES
        for day, row in (
            *asked_rows(tag),
            *limit_rows(tag),
            *faulty_rows(tag),
            *chance.sample(miscounted_rows(tag), 3),
            *some_rows(chance, tag, 3),
        )
    ]


def answer_shipper(day, row):
    return [shipper_at(day.counts, day.numbers, row)], []


def shipper_cases(chance):
    return row_cases(SHIPPER, chance)


def answer_point(day, row):
    return [*point_at(day.counts, day.numbers, row)], []


def point_cases(chance):
    return row_cases(POINT, chance)


TAG, ROW, PLACE = Figure(TABLES), Figure(WORD), Figure(WORD)

ROUTINES = (
    ValueRoutine("number_at", (InMemory(), TAG, ROW, PLACE), answer_number, number_cases),
    ValueRoutine("check_row", (InMemory(), TAG, ROW), answer_check, check_cases),
    ValueRoutine("shipper_at", (InMemory(), ROW), answer_shipper, shipper_cases),
    ValueRoutine("point_at", (InMemory(), ROW), answer_point, point_cases),
)
