"""Cormcushion from Python: the proved library by ctypes, and nothing besides Python's own library.

`bash callers/build` makes the shared object, target/callers/libcormcushion.so, which is for x86-64. Another place for it can be
named by the environment's CORMCUSHION_LIBRARY. Every function either answers or raises Refusal with 01's number and place. A figure
that is no whole number from 0 up to the greatest of its width, but for readings, which are floats, is no input at all:
OverflowError or TypeError. Nor is a file that is no bytes object: ctypes.ArgumentError.

Functions may be called from several threads and run side by side: ctypes gives up the interpreter's lock for a call, and each call
copies the lists that it is given and has room of its own for what is written. A thread needs 192 kB of stack free for a function that
takes a file, 32 kB for month_statement and 16 kB for the others, so threading.stack_size should not be set as low as that.
"""

import ctypes
import os
import pathlib
from array import array
from numbers import Real
from typing import NamedTuple

OVERRUN_RATE = 359_000
"""Schedule 2's rate for an overrun as at January 2019, in hundred-thousandths of a dollar."""

_SHARED_OBJECT = pathlib.Path(__file__).resolve().parent.parent.joinpath("target", "callers", "libcormcushion.so")
_library = ctypes.CDLL(os.environ.get("CORMCUSHION_LIBRARY", str(_SHARED_OBJECT)))

# What 1 counts for in the digits of 01's number, of which there are two; those before them are a kind, which no answer has yet.
_ONE_NUMBER = 10**15
# Every listing has room in so many bytes, and every statement.
_MOST_TEXT = 16_384
# A day of a month: its own number and seven figures.
_DAY_NUMBERS = 8
# The kinds of an hour's reading.
_MEASURED, _SUBSTITUTED, _MISSING = range(3)


class Refusal(Exception):
    """Why a call is refused: 01's number; and the place, a byte of a file, a row or an hour of a list, else 0."""

    def __init__(self, number, place):
        super().__init__(number, place)
        self.number = number
        self.place = place

    def __str__(self):
        return f"refused by {self.number} at {self.place}"


class DayShares(NamedTuple):
    """Each shipper's gigajoules by class, the levels of the five rounds, and what is left."""

    firm: list
    auction: list
    lower_tier: list
    levels: list
    left: int


class Overruns(NamedTuple):
    """A shipper's four overruns of a day in megajoules, the greatest of them, and its charge in cents."""

    hourly: int
    twelve_hourly: int
    daily_receipt: int
    daily_delivery: int
    greatest: int
    cents: int


class DayGas(NamedTuple):
    """A day's whole energies in megajoules and whole volumes in cubic metres, hour by hour, and the sum of either."""

    energies: list
    volumes: list
    energy: int
    volume: int


def _typed(name, *types):
    """A function of the library, each of whose answers is one packed number."""
    function = getattr(_library, name)
    function.restype = ctypes.c_uint64
    function.argtypes = types
    return function


_LIST = (ctypes.c_void_p, ctypes.c_size_t)
_check_day = _typed("cormcushion_check_day", ctypes.c_char_p, ctypes.c_size_t)
_list_shares = _typed("cormcushion_list_shares", ctypes.c_char_p, ctypes.c_size_t, *_LIST)
_list_charges = _typed("cormcushion_list_charges", ctypes.c_char_p, ctypes.c_size_t, ctypes.c_uint32, *_LIST)
_list_points = _typed("cormcushion_list_points", ctypes.c_char_p, ctypes.c_size_t, *_LIST)
_month_statement = _typed("cormcushion_month_statement", *_LIST * 2)
_share_day = _typed("cormcushion_share_day", *[ctypes.c_uint32] * 2, *_LIST * 8, ctypes.c_void_p)
_overruns = _typed("cormcushion_overruns", *[ctypes.c_uint32] * 3, *[ctypes.c_void_p] * 6)
_overruns_excused = _typed("cormcushion_overruns_excused", *[ctypes.c_uint32] * 3, *[ctypes.c_void_p] * 9)
_readings = _typed("cormcushion_readings", *[ctypes.c_void_p] * 6)


def _figure(answer):
    """The figure of an accepted answer."""
    number, figure = answer // _ONE_NUMBER % 100, answer % _ONE_NUMBER
    if number:
        raise Refusal(number, figure)
    return figure


# Of a bytes object array would make one number of several bytes; spread, each byte is a number.
def _narrow(figures):
    """Numbers of 32 bits as C has them; one that does not fit is an OverflowError."""
    return array("I", [*figures])


def _wide(figures):
    """Numbers of 64 bits."""
    return array("Q", [*figures])


def _lent(figures):
    """A list as the library takes it: where it is and how many."""
    return figures.buffer_info()


def _spread(items, count):
    """A list of as many as stated, else 01's 9."""
    spread = [*items]
    if len(spread) != count:
        raise Refusal(9, 0)
    return spread


def _counted(figures, count):
    """Numbers of 64 bits, as many as stated."""
    return _wide(_spread(figures, count))


def _one(figure):
    """A single figure that fits its width."""
    return _narrow([figure])[0]


def _reading(hour):
    """An hour as the library takes it: its kind, and two numbers."""
    if hour is None:
        return _MISSING, 0.0, 0.0
    if isinstance(hour, Real):
        return _SUBSTITUTED, hour, 0.0
    volume, heating_value = hour
    return _MEASURED, volume, heating_value


def _text(listing, *arguments):
    """The text of a listing or a statement."""
    text = ctypes.create_string_buffer(_MOST_TEXT)
    size = _figure(listing(*arguments, ctypes.addressof(text), _MOST_TEXT))
    return text.raw[:size].decode("ascii")


def check(file):
    """Checks a day file's bytes: how many numbers its tables have, or the reader's refusal."""
    return _figure(_check_day(file, len(file)))


def shares(file):
    """The listing of a day file's shares: DAY number FIRM total LEFT left, then a line for each shipper."""
    return _text(_list_shares, file, len(file))


def charges(file, rate=OVERRUN_RATE):
    """The listing of a day file's expected overrun charges: DAY number RATE rate, then a line for each shipper with a meter."""
    return _text(_list_charges, file, len(file), _one(rate))


def points(file):
    """The listing of the hours at a day file's points: DAY number, then each point with its shippers' shares or its own refusal."""
    return _text(_list_points, file, len(file))


def month_statement(days):
    """The statement of a shipper's month, whose days are handed in one after another: a line for each, then TOTAL and the sums.

    A day is eight numbers: its own; the hourly, twelve-hourly, daily receipt and daily delivery overrun and the greatest of them,
    which is charged, in megajoules; the variation and the request charge in cents. The first day at fault is refused at its row.
    Before any is handed in, a day of more or fewer numbers is refused by 9 at 0, and a number that does not fit 64 bits is an
    OverflowError.
    """
    numbers = _wide(number for day in days for number in _counted(day, _DAY_NUMBERS))
    return _text(_month_statement, *_lent(numbers))


def share_day(
    free_flow, compressor, firm_mdqs, auction_mdqs, firm_schedules, auction_schedules, lower_tier_schedules
):
    """A day's shares from both capacities and five lists of a figure for each shipper, all in gigajoules."""
    lists = (firm_mdqs, auction_mdqs, firm_schedules, auction_schedules, lower_tier_schedules)
    given = [_narrow(figures) for figures in lists]
    lent = [_narrow([0] * len(firm_mdqs)) for _ in range(3)]
    levels = _wide([0] * 5)
    places = [part for figures in (*given, *lent) for part in _lent(figures)]
    left = _figure(_share_day(_one(free_flow), _one(compressor), *places, _lent(levels)[0]))
    return DayShares(*map(list, lent), list(levels), left)


def _hours(yesterday, delivered, received):
    """11 delivered hours of yesterday, 24 delivered and 24 received ones of today."""
    return [_counted(yesterday, 11), _counted(delivered, 24), _counted(received, 24)]


def overruns(p, m, yesterday, delivered, received, schedules, metered, rate=OVERRUN_RATE, excused=None):
    """One shipper's overruns of a day and their charge.

    P and M in gigajoules; 11 delivered hours of yesterday, 24 delivered and 24 received ones of today, in megajoules; schedules in
    gigajoules: forward receipt, forward delivery, backhaul receipt, backhaul delivery; backhaul metered in megajoules: receipt,
    delivery. What is excused under cl. 5.4 is three lists as those of the hours, yesterday, delivered, received; None is nothing.
    """
    hours = _hours(yesterday, delivered, received)
    excused_hours = [] if excused is None else _hours(*excused)
    forward_receipt, forward_delivery, backhaul_receipt, backhaul_delivery = schedules
    receipt, delivery = metered
    sides = [
        _narrow([forward_receipt, forward_delivery, backhaul_receipt, backhaul_delivery]),
        _wide([receipt, delivery]),
    ]
    lent = _wide([0] * 5)
    places = [_lent(figures)[0] for figures in (*hours, *sides, *excused_hours, lent)]
    asked = _overruns if excused is None else _overruns_excused
    cents = _figure(asked(_one(rate), _one(p), _one(m), *places))
    return Overruns(*lent, cents)


def readings(hours):
    """A day's whole energies and volumes from a flow computer's 24 readings.

    An hour is a pair, cubic metres and megajoules per cubic metre; or a number, the energy in megajoules that was put in its place;
    or None where nothing was read, and then it has the energy and the volume of the hour before it. The energies are what overruns
    takes. The earliest hour at fault is refused, at the hour from 0. Before any is looked at, more or fewer hours than 24 are refused
    by 9 at 0; an hour that is none of the three is a TypeError or a ValueError, a whole number beyond every float an OverflowError.
    """
    kinds, firsts, seconds = zip(*map(_reading, _spread(hours, 24)))
    given = [array("B", kinds), array("d", firsts), array("d", seconds)]
    lent = [_wide([0] * 24), _wide([0] * 24), _wide([0])]
    energy = _figure(_readings(*[_lent(figures)[0] for figures in (*given, *lent)]))
    energies, volumes, (volume,) = map(list, lent)
    return DayGas(energies, volumes, energy, volume)
