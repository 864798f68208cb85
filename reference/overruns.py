"""Overruns of a day, in MJ (cl. 5 and 7). M is today's Adjusted MDQ in GJ, P yesterday's."""

from typing import NamedTuple

from bounds import BACKHAUL_METERED, GIGAJOULES, MEGAJOULES, up_to
from refusals import require, require_figures, require_hours, require_rows

YESTERDAY = 11
TODAY = 24
PERIOD = 12


class Sides(NamedTuple):
    """Both sides' 24 hours as one value, two rows, delivered first."""

    delivered: list
    received: list


class Excused(NamedTuple):
    """Megajoules of each hour that the operator's own reprofiling moved (cl. 5.4)."""

    yesterday: list
    delivered: list
    received: list


NOTHING_EXCUSED = Excused([0] * YESTERDAY, [0] * TODAY, [0] * TODAY)


class Schedules(NamedTuple):
    """Gigajoules scheduled for the day."""

    forward_receipt: int
    forward_delivery: int
    backhaul_receipt: int
    backhaul_delivery: int


class BackhaulMetered(NamedTuple):
    """Megajoules of backhaul metered over the day."""

    receipt: int
    delivery: int


class Daily(NamedTuple):
    receipt: int
    delivery: int


class Overruns(NamedTuple):
    hourly: int
    twelve_hourly: int
    daily_receipt: int
    daily_delivery: int
    greatest: int


def excess(quantity, limit):
    return max(quantity - limit, 0)


def compared(metered, excused):
    """What is excused is taken off the hour before it is compared with a limit (cl. 5.4)."""
    return [hour - off for hour, off in zip(metered, excused)]


def compared_sides(hours, excused):
    return Sides(
        compared(hours.delivered, excused.delivered), compared(hours.received, excused.received)
    )


def hourly_quantity(m, hours):
    """In each hour the greater of the two excesses (cl. 5.2, 5.3, 7.3)."""
    return sum(
        max(excess(delivered, 50 * m), excess(received, 44 * m))
        for delivered, received in zip(hours.delivered, hours.received)
    )


def twelve_hourly_limit(p, m, h):
    """M12HQ of the period that ends with hour h of today (cl. 5.5)."""
    if h >= PERIOD:
        return 564 * m
    return 47 * ((PERIOD - h) * p + h * m)


def twelve_hourly_quantity(p, m, delivered):
    """24 periods, each ending with an hour of today (cl. 7.5)."""
    return sum(
        excess(sum(delivered[h - 1 : h - 1 + PERIOD]), twelve_hourly_limit(p, m, h))
        for h in range(1, TODAY + 1)
    )


def daily_quantity(hours, backhaul_metered, forward_schedule, backhaul_schedule):
    """All gas metered on one side over all gas scheduled there (cl. 7.1, 7.4)."""
    return excess(sum(hours) + backhaul_metered, 1_000 * (forward_schedule + backhaul_schedule))


def daily_quantities(hours, metered, schedules):
    return Daily(
        receipt=daily_quantity(
            hours.received, metered.receipt, schedules.forward_receipt, schedules.backhaul_receipt
        ),
        delivery=daily_quantity(
            hours.delivered, metered.delivery, schedules.forward_delivery, schedules.backhaul_delivery
        ),
    )


def require_sides_length(hours):
    require_hours(TODAY, hours.delivered)
    require_hours(TODAY, hours.received)


def require_sides_bound(hours):
    require_rows(MEGAJOULES, hours.delivered)
    require_rows(MEGAJOULES, hours.received)


def require_excused(metered, excused):
    """What was metered is the only bound of what is excused; the place is the hour."""
    for hour, (gas, off) in enumerate(zip(metered, excused)):
        require(off in up_to(gas), 3, hour)


def require_sides_excused(hours, excused):
    require_excused(hours.delivered, excused.delivered)
    require_excused(hours.received, excused.received)


def hourly_overrun(m, hours, excused=NOTHING_EXCUSED):
    """excused: both sides' hours, as those metered."""
    require_sides_length(hours)
    require_sides_length(excused)
    require_figures(GIGAJOULES, m)
    require_sides_bound(hours)
    require_sides_excused(hours, excused)
    return hourly_quantity(m, compared_sides(hours, excused))


def twelve_hourly_overrun(p, m, delivered, excused=(0,) * (YESTERDAY + TODAY)):
    """delivered, excused: 11 hours of yesterday, then 24 of today."""
    require_hours(YESTERDAY + TODAY, delivered)
    require_hours(YESTERDAY + TODAY, excused)
    require_figures(GIGAJOULES, p, m)
    require_rows(MEGAJOULES, delivered)
    require_excused(delivered, excused)
    return twelve_hourly_quantity(p, m, compared(delivered, excused))


def daily_overruns(hours, metered, schedules):
    require_sides_length(hours)
    require_figures(BACKHAUL_METERED, *metered)
    require_figures(GIGAJOULES, *schedules)
    require_sides_bound(hours)
    return daily_quantities(hours, metered, schedules)


def day_overruns(p, m, yesterday, hours, schedules, metered, excused=NOTHING_EXCUSED):
    """The four overruns of a day and the greatest of them, which is charged (cl. 7.2). The daily
    ones count what is excused."""
    require_hours(YESTERDAY, yesterday)
    require_sides_length(hours)
    require_hours(YESTERDAY, excused.yesterday)
    require_sides_length(excused)
    require_figures(GIGAJOULES, p, m, *schedules)
    require_figures(BACKHAUL_METERED, *metered)
    require_rows(MEGAJOULES, yesterday)
    require_sides_bound(hours)
    require_excused(yesterday, excused.yesterday)
    require_sides_excused(hours, excused)

    sides = compared_sides(hours, excused)
    both_days = [*compared(yesterday, excused.yesterday), *sides.delivered]
    four = (
        hourly_quantity(m, sides),
        twelve_hourly_quantity(p, m, both_days),
        *daily_quantities(hours, metered, schedules),
    )
    return Overruns(*four, greatest=max(four))
