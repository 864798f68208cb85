"""A meter of a day's numbers: the figures and the hours of a tag 5 row, and the excused hours of a
tag 9 row.

Where a row is refused, its hours are all zero; the refusal is that of `meter_at` or `excused_at`.
"""

from typing import NamedTuple

from dayformat import EXCUSED, FORMS, HOURS, METER
from dayvalues import number_at, row_at
from overruns import TODAY, YESTERDAY, Sides
from refusals import Refusal, require_room


class Side(NamedTuple):
    """A side's schedules in GJ and its backhaul metered in MJ."""

    forward: int
    backhaul: int
    metered: int


class Figures(NamedTuple):
    shipper: int
    p: int
    m: int
    receipt: Side
    delivery: Side


def meter_at(counts, numbers, row):
    return row_at(counts, numbers, METER, row)


def excused_at(counts, numbers, row):
    return row_at(counts, numbers, EXCUSED, row)


def row_or_zeros(counts, numbers, tag, row):
    try:
        return row_at(counts, numbers, tag, row)
    except Refusal:
        return (0,) * len(FORMS[tag].columns)


def yesterday_of(tag, row):
    """The 11 delivered hours of yesterday."""
    return row[HOURS[tag]][:YESTERDAY]


def hours_of(tag, row):
    """Both sides' 24 hours of today, delivered first."""
    today = row[HOURS[tag]][YESTERDAY:]
    return Sides(delivered=today[:TODAY], received=today[TODAY:])


def side_of(meter, side):
    """Forward receipt and delivery, backhaul receipt and delivery, backhaul metered of both."""
    return Side(*meter[62 + side : 68 : 2])


def meter_figures(counts, numbers, row):
    meter = meter_at(counts, numbers, row)
    return Figures(*meter[:3], receipt=side_of(meter, 0), delivery=side_of(meter, 1))


def meter_yesterday(counts, numbers, row):
    return yesterday_of(METER, row_or_zeros(counts, numbers, METER, row))


def meter_hours(counts, numbers, row):
    return hours_of(METER, row_or_zeros(counts, numbers, METER, row))


def meter_delivered(counts, numbers, row, room=None):
    """Yesterday's 11 and today's 24 delivered hours; room is how many hours are lent."""
    meter = meter_at(counts, numbers, row)
    delivered = [*yesterday_of(METER, meter), *hours_of(METER, meter).delivered]
    require_room(len(delivered), room)
    return delivered


def excused_shipper(counts, numbers, row):
    return excused_at(counts, numbers, row)[0]


def excused_row(counts, numbers, shipper):
    """The first tag 9 row of a shipper, or how many rows there are; nothing is tested."""
    for row in range(counts.excused):
        if number_at(counts, numbers, EXCUSED, row, 0) == shipper:
            return row
    return counts.excused


def excused_yesterday(counts, numbers, row):
    return yesterday_of(EXCUSED, row_or_zeros(counts, numbers, EXCUSED, row))


def excused_hours(counts, numbers, row):
    return hours_of(EXCUSED, row_or_zeros(counts, numbers, EXCUSED, row))
