"""Cases of the meters of a day in memory: a row's tests, its figures and its hours."""

from cases import WORD, Figure
from dayfile import day_of, tables_of
from dayformat import EXCUSED, FORMS, METER, POINT, SHIPPER
from daymeters import meter_at, meter_delivered, meter_figures, meter_hours, meter_yesterday
from days import full_day
from filecases import NUMBERS
from numberfaults import padded
from rowcases import (
    METERED,
    asked_rows,
    faulty_rows,
    limit_rows,
    miscounted_rows,
    row_cases,
    some_rows,
    tables_for,
)
from valuecases import InMemory, Lent, ValueRoutine

# Yesterday's 11 and today's 24.
HOURS = 35


def answer_check(day, row):
    meter_at(day.counts, day.numbers, row)
    return [], []


def check_cases(chance):
    return row_cases(METER, chance)


def answer_figures(day, row):
    shipper, p, m, receipt, delivery = meter_figures(day.counts, day.numbers, row)
    return [shipper, p, m, *receipt, *delivery], []


def answer_yesterday(day, row):
    return meter_yesterday(day.counts, day.numbers, row), []


def answer_hours(day, row):
    delivered, received = meter_hours(day.counts, day.numbers, row)
    return [*delivered, *received], []


def hours_cases(tag, chance):
    """Accepted and refused: each row, and some of what the check is tried on; and sound rows beside
    a shipper and a point too many."""
    tables = tables_for(tag)
    too_many = [padded(tables, other, FORMS[other].count[-1] + 1) for other in (SHIPPER, POINT)]
    return [
        *asked_rows(tag),
        *limit_rows(tag),
        *([day, 1] for day in too_many),
        *chance.sample([*faulty_rows(tag), *miscounted_rows(tag)], 4),
        *some_rows(chance, tag, 3),
    ]


def meter_cases(chance):
    return hours_cases(METER, chance)


def answer_delivered(day, row, room):
    return [], [meter_delivered(day.counts, day.numbers, row, room)]


def delivered_cases(chance):
    """The same with room enough or one hour more; other rooms; and the last meter of a full day
    without excused gas."""
    metered = day_of(METERED)
    rooms = (0, HOURS - 1, HOURS, HOURS + 1)
    return [
        *([day, row, HOURS + chance.randint(0, 1)] for day, row in meter_cases(chance)),
        *([metered, row, room] for room in rooms for row in (1, 2)),
        [day_of({**tables_of(full_day()), EXCUSED: []}), 63, HOURS],
    ]


ROW = Figure(WORD)

ROUTINES = (
    ValueRoutine("check_meter", (InMemory(), ROW), answer_check, check_cases),
    ValueRoutine("meter_figures", (InMemory(), ROW), answer_figures, check_cases),
    ValueRoutine("meter_yesterday", (InMemory(), ROW), answer_yesterday, meter_cases),
    ValueRoutine("meter_hours", (InMemory(), ROW), answer_hours, meter_cases),
    ValueRoutine(
        "meter_delivered", (InMemory(), ROW, Lent(NUMBERS)), answer_delivered, delivered_cases
    ),
)
