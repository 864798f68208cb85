"""Cases of the excused hours of a day in memory: a row's tests, its shipper, a shipper's row, its
hours."""

from bounds import NAME, up_to
from cases import WORD, Figure
from dayfile import day_of
from dayformat import EXCUSED
from daymeters import (
    excused_at,
    excused_hours,
    excused_row,
    excused_shipper,
    excused_yesterday,
)
from days import excused_gas, make_day
from metercases import hours_cases
from rowcases import METERED, REPROFILED, row_cases, some_rows
from rowfaults import Edit, edited
from valuecases import InMemory, ValueRoutine

# The same two shippers, with nothing excused.
NAMED = {**REPROFILED, EXCUSED: [excused_gas(7), excused_gas(9)]}


def answer_check(day, row):
    excused_at(day.counts, day.numbers, row)
    return [], []


def answer_shipper(day, row):
    return [excused_shipper(day.counts, day.numbers, row)], []


def check_cases(chance):
    return row_cases(EXCUSED, chance)


def answer_row(day, shipper):
    return [excused_row(day.counts, day.numbers, shipper)], []


def other_counts(**counts):
    """A day whose counts say nothing of its list's length."""
    day = day_of(NAMED)
    return day._replace(counts=day.counts._replace(**counts))


def row_of_cases(chance):
    """Shippers with a row, once and twice, and without; an hour, which is no name; a name beyond its
    bound; shippers of a meter, whose table is not looked at; and names past the list, which are 0."""
    twice = day_of({**NAMED, EXCUSED: [excused_gas(9), *NAMED[EXCUSED]]})
    wide = day_of(edited(NAMED, Edit(EXCUSED, 0, 0, 2**32 + 9)))
    metered = day_of({**METERED, EXCUSED: [excused_gas(9, 1, 1)]})
    greatest = WORD[-1]
    return [
        *([day_of(NAMED), shipper] for shipper in (7, 9, 0, 8, NAME[-1])),
        [day_of(REPROFILED), REPROFILED[EXCUSED][0][1]],
        *([twice, shipper] for shipper in (7, 9)),
        [wide, 9],
        *([metered, shipper] for shipper in (7, 9)),
        [make_day(), 0],
        *([other_counts(excused=count), 9] for count in (0, 1, 3, greatest)),
        *([other_counts(excused=count), 0] for count in (3, greatest)),
        *([other_counts(shippers=count), 9] for count in (0, greatest)),
        *([some, chance.choice((0, 7, 9))] for some, _ in some_rows(chance, EXCUSED, 3)),
    ]


def answer_yesterday(day, row):
    return excused_yesterday(day.counts, day.numbers, row), []


def answer_hours(day, row):
    delivered, received = excused_hours(day.counts, day.numbers, row)
    return [*delivered, *received], []


def excused_cases(chance):
    return hours_cases(EXCUSED, chance)


ROW, SHIPPER = Figure(WORD), Figure(up_to(NAME[-1]))

ROUTINES = (
    ValueRoutine("check_excused", (InMemory(), ROW), answer_check, check_cases),
    ValueRoutine("excused_shipper", (InMemory(), ROW), answer_shipper, check_cases),
    ValueRoutine("excused_row", (InMemory(), SHIPPER), answer_row, row_of_cases),
    ValueRoutine("excused_yesterday", (InMemory(), ROW), answer_yesterday, excused_cases),
    ValueRoutine("excused_hours", (InMemory(), ROW), answer_hours, excused_cases),
)
