"""A shipper's month (C-11): an account of up to 31 days, the sums over them, and the statement.

An account goes in and comes back by value, so that a refusal leaves it as it was. It may be forged:
any count, any days.
"""

from typing import NamedTuple

from bounds import (
    BACKHAUL_METERED,
    CHARGEABLE_OVERRUN,
    DAY_NUMBER,
    GIGAJOULES,
    MEGAJOULES,
    MONTH_DAYS,
    RATE,
    REQUESTS,
    up_to,
)
from listings import lines
from overruns import PERIOD, TODAY
from refusals import Refusal, require, require_figures, require_room
from tariff import request_charge, variation_charge


class Figures(NamedTuple):
    """Of a day, or summed: the four overruns in 01's order and what is charged of them, in MJ; the
    variation and the request charge, in cents."""

    hourly: int
    twelve_hourly: int
    daily_receipt: int
    daily_delivery: int
    chargeable: int
    variation: int
    request: int


class AccountDay(NamedTuple):
    number: int
    figures: Figures


class Account(NamedTuple):
    """The days held are the first `count` of its 31 slots."""

    count: int
    slots: tuple


NO_FIGURES = Figures(*[0] * 7)
NO_DAY = AccountDay(0, NO_FIGURES)
EMPTY = Account(0, (NO_DAY,) * MONTH_DAYS[-1])

# A day's number and its figures.
ROW = 1 + len(NO_FIGURES)

DAILY = up_to(TODAY * MEGAJOULES[-1] + BACKHAUL_METERED[-1])

# What 01's bounds can yield.
BOUNDS = Figures(
    hourly=up_to(TODAY * MEGAJOULES[-1]),
    twelve_hourly=up_to(TODAY * PERIOD * MEGAJOULES[-1]),
    daily_receipt=DAILY,
    daily_delivery=DAILY,
    chargeable=CHARGEABLE_OVERRUN,
    variation=up_to(variation_charge(RATE[-1], 0, GIGAJOULES[-1], 0, 0)),
    request=up_to(request_charge(RATE[-1], REQUESTS[-1])),
)


def numbers_of(day):
    return (day.number, *day.figures)


def held(account):
    return account.slots[: account.count]


def are_bounded(figures):
    within = all(figure in bound for bound, figure in zip(BOUNDS, figures))
    return within and figures.chargeable == max(figures[:4])


def are_rising(days):
    return all(day.number < later.number for day, later in zip(days, days[1:]))


def require_month(count, days):
    """3 for a day too many or for any day's figure, then 5 for any day's number."""
    require_figures(MONTH_DAYS, count)
    require(all(are_bounded(day.figures) for day in days), 3)
    require(are_rising(days), 5)


def take_in(account, day):
    """The account with a day more; what would come of it is tested, whoever is at fault."""
    count, days = account.count + 1, (*held(account), day)
    require_month(count, days)
    return Account(count, (*days, *account.slots[count:]))


def tested(account):
    """The days held, where nothing is wrong with them."""
    require_month(account.count, held(account))
    return held(account)


def sums(days):
    return Figures(*map(sum, zip(NO_FIGURES, *(day.figures for day in days))))


def total_up(account):
    return sums(tested(account))


def statement(days):
    """A line for each day, then TOTAL and the sums."""
    return lines([*map(numbers_of, days), ("TOTAL", *sums(days))])


def close(account, room=None):
    """The statement, and the empty account that goes on; room is how many bytes are lent."""
    text = statement(tested(account))
    require_room(len(text), room)
    return text, EMPTY


def take_row(account, row, number, *figures):
    """A day of a list; a refusal is about its row."""
    try:
        require_figures(DAY_NUMBER, number)
        return take_in(account, AccountDay(number, Figures(*figures)))
    except Refusal as refusal:
        raise Refusal(refusal.number, row) from refusal


def list_month(numbers, room=None):
    """The statement of days handed in one after another, each a row of a list."""
    require(len(numbers) % ROW == 0, 9)
    account = EMPTY
    for at in range(0, len(numbers), ROW):
        account = take_row(account, at // ROW, *numbers[at : at + ROW])
    text, _ = close(account, room)
    return text
