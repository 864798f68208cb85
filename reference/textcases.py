"""Cases of the line of a refusal and of the listings."""

from bounds import RATE, up_to
from cases import Figure, Room, put, wide
from daycases import faulty_files, rooms
from dayfile import day_of, tables_of, write_day
from dayformat import ENTRY, EXCUSED, METER, POINT
from days import excused_gas, full_day, make_day, meter, some_day, some_names
from filecases import Bytes, FileRoutine
from filefaults import file_of
from listings import charges_listing, lines, points_listing, refusal_row, shares_listing
from refusals import Refusal, require_figures, require_room
from rowfaults import MDQS, METERED, REPROFILED, SEVERAL, edited
from sharecases import some_day as some_table
from tariff import OVERRUN_RATE

# Room enough for the listing of a day of few rows.
AMPLE = 4_000


# The same day without its tag 9 fields, on which shares and points do not depend.
UNEXCUSED = {**REPROFILED, EXCUSED: []}


def laid(text, room):
    require_room(len(text), room)
    return [len(text)], text.encode()


def line_of_refusal(number, place):
    return lines([refusal_row(Refusal(number, place))])


def answer_refusal(number, place, room):
    return laid(line_of_refusal(number, place), room)


def refusal_cases(_):
    figures = [(number, 0) for number in (0, 1, 9, 10, 11, 99, 100, 255)]
    figures.extend((2, place) for place in (9, 10, 40_975, 2**32 - 1, 2**32, 2**64 - 1))
    lengths = [(figure, len(line_of_refusal(*figure))) for figure in figures]
    first, *others, last = lengths
    return [
        *([*figure, length] for figure, length in others),
        *([*figure, room] for figure, length in (first, last) for room in rooms(length)),
    ]


def answer_shares(room, file):
    return laid(shares_listing(file), room)


def shared_file(chance, rows):
    """A day whose shippers share: some classes full, the next one short."""
    free_flow, compressor, _, _, _, *lists = some_table(chance, rows)
    shippers = list(zip(some_names(chance, rows), *lists))
    return write_day(make_day((chance.randrange(2**32), free_flow, compressor), shippers))


def listing_cases(text_of, files, chance):
    """The files, with the text's room or one byte more; two of them with other rooms; and files
    that are refused."""
    faulty = [file_of(edited(SEVERAL, MDQS[0])), *chance.sample(faulty_files(chance), 25)]
    lengths = [(file, len(text_of(file))) for file in files]
    return [
        *([length + chance.randint(0, 1), file] for file, length in lengths),
        *([room, file] for file, length in lengths[:2] for room in rooms(length)),
        *([chance.choice((0, AMPLE)), file] for file in (b"", *faulty)),
    ]


def shares_cases(chance):
    rows = (3, 0, 1, 1, 2, 2, 3, 3, 4, 5, 6, 8, 12, 20, 64)
    files = [shared_file(chance, count) for count in rows]
    others = [file_of(tables) for tables in (SEVERAL, METERED, REPROFILED, UNEXCUSED)]
    return listing_cases(shares_listing, [*files, *others], chance)


def full_file(without):
    """As many rows as there may be, but none of some tags, and excused hours of the last meter alone."""
    tables = tables_of(full_day())
    last = {**tables, EXCUSED: tables[EXCUSED][-1:]}
    return write_day(day_of({**last, **{tag: [] for tag in without}}))


# 01's figure: 288,000 MJ twelve-hourly.
OVER = make_day(
    shippers=[(7, 1, 0, 0, 0, 0)],
    meters=[meter(7, 1_000, 1_000, delivered=48_000, schedules=(0, 1_152, 0, 0))],
)

# That meter three times: with 1,000 excused in all 35 hours, without a field, and with 1,000 in
# today's hour 1.
EXCUSED_OVER = make_day(
    shippers=[(name, 1, 0, 0, 0, 0) for name in (7, 8, 9)],
    meters=[(name, *tables_of(OVER)[METER][0][1:]) for name in (7, 8, 9)],
    excused=[excused_gas(7, 1_000), (9, *put([0] * 59, 11, 1_000))],
)

# C-14's figure: 24 hourly, 468,000 twelve-hourly, and 24 of delivery, which goes on counting it.
BOTH_SIDES = make_day(
    shippers=[(7, 1, 0, 0, 0, 0)],
    meters=[(7, 1_000, 1_000, *[0] * 11, *[50_001] * 24, *[44_002] * 24, 1_200, 1_200, *[0] * 4)],
    excused=[(7, *[0] * 11, *[1] * 48)],
)


def answer_charges(rate, room, file):
    require_figures(RATE, rate)
    return laid(charges_listing(file, rate), room)


def charges_cases(chance):
    some = [write_day(some_day(chance)) for _ in range(12)]
    over, *figures = [write_day(day) for day in (OVER, EXCUSED_OVER, BOTH_SIDES)]
    files = [over, file_of(SEVERAL), *figures, *some, full_file(without=(POINT, ENTRY))]
    cases = listing_cases(lambda file: charges_listing(file, OVERRUN_RATE), files, chance)
    rates = (0, 1, RATE[-1], RATE[-1] + 1, 2**32 - 1)
    return [
        *([OVERRUN_RATE, *case] for case in cases),
        *([rate, AMPLE, file] for rate in rates for file in (*files[:2], b"")),
    ]


# Points of two shippers short of their entitlements and not, of none, of one, and of two without
# MDQs where H equals TRE and where it is one above (6).
HOURS = write_day(
    make_day(
        shippers=[(name, mdq, 0, 0, 0, 0) for name, mdq in ((7, 300), (9, 100), (11, 0), (12, 0))],
        points=[(0, 1, 5_000), (0, 2, 9_000), (0, 3, 8), (1, 1, 77), (1, 2, 6_000), (1, 3, 6_001)],
        entries=[
            *((0, 1, 7, 4_000), (0, 1, 9, 2_000)),
            *((0, 2, 7, 4_000), (0, 2, 9, 2_000)),
            (1, 1, 11, 5),
            *((1, 2, 11, 4_000), (1, 2, 12, 2_000)),
            *((1, 3, 11, 4_000), (1, 3, 12, 2_000)),
        ],
    )
)


def answer_points(room, file):
    return laid(points_listing(file), room)


def points_cases(chance):
    some = [write_day(some_day(chance)) for _ in range(20)]
    others = [file_of(tables) for tables in (METERED, REPROFILED, UNEXCUSED)]
    files = [HOURS, *others, *some, full_file(without=(METER, EXCUSED))]
    return listing_cases(points_listing, files, chance)


ROUTINES = (
    FileRoutine(
        "refusal_line",
        (Figure(up_to(255)), Figure(up_to(2**64 - 1), wide), Room()),
        answer_refusal,
        refusal_cases,
    ),
    FileRoutine("list_shares", (Room(), Bytes()), answer_shares, shares_cases),
    FileRoutine(
        "list_charges", (Figure(RATE), Room(), Bytes()), answer_charges, charges_cases
    ),
    FileRoutine("list_points", (Room(), Bytes()), answer_points, points_cases),
)
