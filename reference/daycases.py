"""Cases of the day file's reader and writer."""

from cases import WORD, Figure, Room, put
from dayfile import TABLES, Counts, Day, Head, day_of, file_size, read_day, write_day
from dayformat import ENTRY, EXCUSED, METER, POINT, SHIPPER
from days import excused_gas, full_day, meter, some_day
from filecases import NUMBERS, Bytes, FileRoutine, Halves
from filefaults import broken_at, broken_files, cuts, fields_of, file_of, noise
from rowfaults import (
    METERED,
    ONE_EACH,
    REPROFILED,
    SEVERAL,
    TWO_REPROFILED,
    Edit,
    edited,
    edited_tables,
    too_many_tables,
)


def rooms(needed):
    """None, too little, enough and more."""
    return (0, needed - 1, needed, needed + 1)


def answer_reading(room, file):
    day = read_day(file, room)
    return [*day.head, *day.counts], day.numbers


def excused_files():
    """Faults of a tag 9 field, and of the order of tags 5 and 9; cuts within it."""
    fields = fields_of(REPROFILED)
    *before, own, excused = fields
    *_, first, second, excused_first, excused_second = fields_of(TWO_REPROFILED)
    without = b"".join(fields[:-1])
    return [
        *broken_at(fields, len(fields) - 1),
        b"".join([*before, excused, own]),
        b"".join([*before, excused]),
        b"".join([*before, first, excused_first, second, excused_second]),
        *(without + excused[:kept] for kept in (1, 2, 3, 4, len(excused) - 1)),
    ]


def faulty_files(chance):
    """Files by the rows they are made of, and files whose bytes are damaged."""
    fields, metered = fields_of(ONE_EACH), file_of(METERED)
    tables = edited_tables(chance)
    return [
        *map(file_of, tables),
        *cuts(b"".join(fields)),
        *(metered[:end] for end in (41, 42, 43, 44, len(metered) - 1)),
        *broken_files(fields),
        *broken_at(fields_of(METERED), 2),
        *excused_files(),
        *(noise(chance, file_of(chance.choice(tables))) for _ in range(40)),
    ]


def reading_cases(chance):
    sound = [day_of(tables) for tables in (SEVERAL, REPROFILED, METERED, ONE_EACH, TWO_REPROFILED)]
    days = [some_day(chance) for _ in range(12)]
    needed = [(write_day(day), len(day.numbers)) for day in (*sound, *days)]
    full = full_day()
    return [
        *([room, file] for file, numbers in needed[:2] for room in rooms(numbers)),
        *([numbers + chance.randint(0, 1), file] for file, numbers in needed[2:]),
        [len(full.numbers) + 1, write_day(full)],
        *([chance.choice((0, 300, 300)), file] for file in faulty_files(chance)),
        *([0, file_of(tables)] for tables in too_many_tables()),
    ]


def answer_writing(day, free_flow, compressor, *arguments):
    *counts, room, numbers = arguments
    file = write_day(Day(Head(day, free_flow, compressor), Counts(*counts), numbers), room)
    return [len(file)], file


def writing(day, room):
    return [*day.head, *day.counts, room, day.numbers]


def other_counts(day):
    """Counts that say another number of numbers, and some that say as many."""
    places = range(len(TABLES))
    changed = [put(day.counts, place, count) for place in places for count in (0, 2, WORD[-1])]
    shifts = ((-1, 2, 0, 0, 0), (2, 0, -3, 0, 0), (1, 2, -3, 0, 0), (-2, 0, 3, 0, 0))
    shifted = [[count + by for count, by in zip(day.counts, shift)] for shift in shifts]
    return [day._replace(counts=Counts(*counts)) for counts in (*changed, *shifted)]


def other_numbers(day):
    """Too few numbers and too many."""
    numbers = day.numbers
    lists = ([], numbers[:-1], numbers[1:], [*numbers, 0], numbers * 2)
    return [day._replace(numbers=list(other)) for other in lists]


# Numbers whose lowest 32 bits would pass.
WIDE = [
    Edit(tag, row, column, 2**32 + SEVERAL[tag][row][column])
    for tag, row, column in ((SHIPPER, 1, 0), (SHIPPER, 2, 5), (POINT, 0, 0), (ENTRY, 3, 3))
] + [Edit(SHIPPER, 0, 1, 2**64 - 1)]

WIDE_EXCUSED = [
    Edit(EXCUSED, 0, 0, 2**32 + 7),
    Edit(EXCUSED, 0, 1, 2**32),
    Edit(EXCUSED, 0, 59, 2**64 - 1),
]


def two_meters():
    """Excused hours of a shipper with two meters: within one of them, within both together, and
    within neither."""
    own = meter(7, delivered=3, received=4), meter(7, delivered=4, received=3)
    excused = ((4, 3), (3, 4), (3, 3), (4, 4), (5, 0))
    return [{**METERED, METER: own, EXCUSED: [excused_gas(7, *hours)]} for hours in excused]


def faulty_days(chance):
    twice = {**METERED, METER: METERED[METER] * 2}
    unmetered = {**REPROFILED, METER: [], EXCUSED: [excused_gas(7, 2**32)]}
    # counts are refused before any row, so 65 rows of excused gas need no meters
    *too_many, excused = too_many_tables()
    too_many.append({**excused, METER: []})
    tables = [*edited_tables(chance), *too_many, twice, *two_meters(), unmetered]
    wide_numbers = [edited(SEVERAL, edit) for edit in WIDE]
    wide_excused = [edited(REPROFILED, edit) for edit in WIDE_EXCUSED]
    return [day_of(rows) for rows in (*tables, *wide_numbers, *wide_excused)]


def writing_cases(chance):
    several, reprofiled, full = day_of(SEVERAL), day_of(REPROFILED), full_day()
    days = [day_of(METERED), day_of(TWO_REPROFILED), *(some_day(chance) for _ in range(12))]
    beyond = several._replace(head=several.head._replace(free_flow=1_000_001))
    lists = [*other_counts(several), *other_numbers(several), *other_numbers(beyond)]
    return [
        *(writing(several, room) for room in rooms(file_size(several.counts))),
        *(writing(reprofiled, room) for room in rooms(file_size(reprofiled.counts))),
        *(writing(day, file_size(day.counts) + chance.randint(0, 1)) for day in days),
        writing(full, file_size(full.counts)),
        *(writing(day, 300) for day in lists),
        *(writing(day, chance.choice((0, 900, 900))) for day in faulty_days(chance)),
    ]


ROUTINES = (
    FileRoutine("read_day", (Room(), Bytes()), answer_reading, reading_cases, NUMBERS),
    FileRoutine(
        "write_day",
        (*[Figure(WORD)] * (3 + len(TABLES)), Room(), Halves()),
        answer_writing,
        writing_cases,
    ),
)
