"""Cases of a shipper's month: accounts sound and forged, days sound and faulty, statements."""

from typing import Callable, NamedTuple

from bounds import DAY_NUMBER, MONTH_DAYS
from cases import put, some, wide, word
from filecases import BYTES
from month import (
    BOUNDS,
    EMPTY,
    NO_DAY,
    NO_FIGURES,
    Account,
    AccountDay,
    Figures,
    close,
    held,
    list_month,
    numbers_of,
    statement,
    take_in,
    total_up,
)
from refusals import Refusal
from valuecases import Lent, lent_in

LAST = DAY_NUMBER[-1]
CHARGEABLE = Figures._fields.index("chargeable")
REQUEST = Figures._fields.index("request")

# Room enough for the statement of a few small days.
AMPLE = 100


class Numbers(NamedTuple):
    """How many numbers, then each as two words."""

    def words(self, numbers):
        return [*word(len(numbers)), *(part for number in numbers for part in wide(number))]


class OneDay(NamedTuple):
    """Its number, then each figure as two words."""

    def words(self, day):
        return [*word(day.number), *(part for figure in day.figures for part in wide(figure))]


class Days(NamedTuple):
    """How many days, then the days."""

    def words(self, days):
        return [*word(len(days)), *(part for day in days for part in OneDay().words(day))]


class InAccount(NamedTuple):
    """The count as two words, then the slots that are told; the others are zeros."""

    def words(self, account):
        return [*wide(account.count), *Days().words(told(account))]


def told(account):
    """The slots up to the last that is not all zeros."""
    filled = [place for place, day in enumerate(account.slots, 1) if day != NO_DAY]
    return account.slots[: max(filled, default=0)]


def rows_of(days):
    """Each day's eight numbers."""
    return [number for day in days for number in numbers_of(day)]


class MonthRoutine(NamedTuple):
    """Its name; its arguments; how many figures it answers, zeros where it refuses; the second
    program's answer, as figures, text and the account afterwards; and its cases by chance."""

    name: str
    fields: tuple
    figures: int
    answer: Callable
    cases: Callable


def account_in(routine, case):
    pairs = zip(routine.fields, case)
    return next((account for field, account in pairs if isinstance(field, InAccount)), None)


def words_of(routine, case):
    """01's number and place, the figures, the lent block whole, and the account afterwards."""
    try:
        figures, text, account = routine.answer(*case)
        words = [0, 0, *figures]
    except Refusal as refusal:
        words = [refusal.number, refusal.place, *[0] * routine.figures]
        text, account = "", account_in(routine, case)
    for block, room in lent_in(routine, case):
        words.extend(block.spell(block.after(text.encode(), room)))
    if account is not None:
        words.extend([":", account.count, *rows_of(told(account))])
    return words


def account_of(days, count=None):
    """The days in the first slots, all of them held unless a count is given."""
    slots = (*days, *EMPTY.slots[len(days) :])
    return Account(len(days) if count is None else count, slots)


def sound_day(number, four=(0, 0, 0, 0), charges=(0, 0)):
    return AccountDay(number, Figures(*four, max(four), *charges))


def one_figure(place, figure):
    """A day of zeros but for one figure, which is charged where it is an overrun."""
    figures = Figures(*put(NO_FIGURES, place, figure))
    return AccountDay(0, figures._replace(chargeable=max(figures[: CHARGEABLE + 1])))


def charged(day, chargeable):
    return day._replace(figures=day.figures._replace(chargeable=chargeable))


def numbered(days):
    return [day._replace(number=number) for number, day in enumerate(days)]


def with_figures(days, place, day):
    """The days, one of them with another's figures."""
    return put(days, place, days[place]._replace(figures=day.figures))


# The worked figures; days 2, 5 and 8; and a day that is later than most.
WORKED = [
    AccountDay(1, Figures(0, 288_000, 0, 0, 288_000, 408, 0)),
    AccountDay(3, Figures(5, 0, 7, 2, 7, 0, 362_710)),
]
THREE = [sound_day(number, (0, number, 4, 1), (7, number)) for number in (2, 5, 8)]
LATER = sound_day(4_000_000_000, (1, 2, 3, 4), (5, 6))

# As many days as there may be, their numbers and figures as long as can be.
GREATEST = Figures(*(bound[-1] for bound in BOUNDS))
LONGEST = [AccountDay(number, GREATEST) for number in DAY_NUMBER[-MONTH_DAYS[-1] :]]

# Each figure at its bound, the chargeable quantity by way of the twelve-hourly overrun; and each of
# the four as the greatest.
AT_BOUNDS = [
    one_figure(place, greatest) for place, greatest in enumerate(GREATEST) if place != CHARGEABLE
]
EACH_GREATEST = [sound_day(0, put([5] * 4, place, 6)) for place in range(4)]

# One above each bound; one below the greatest of the four, one above it, and all four added up; and
# figures whose lowest 32 bits would pass, or that no sum holds.
FAULTY = [
    *(one_figure(place, greatest + 1) for place, greatest in enumerate(GREATEST)),
    *(charged(day, 5) for day in EACH_GREATEST),
    *(charged(EACH_GREATEST[0], chargeable) for chargeable in (7, 21, 2**32 + 6)),
    one_figure(REQUEST, 2**32),
    AccountDay(0, Figures(*[2**64 - 1] * 7)),
]
FAULTY_HELD = [
    account_of(with_figures(THREE, place % 3, day)) for place, day in enumerate(FAULTY)
]

# Days that don't rise; and a figure at fault before a fall and after it.
FALLING = [THREE[2], THREE[0], THREE[1]]
NOT_RISING = [FALLING, [THREE[0], THREE[2], THREE[2]], [*LONGEST[1:], LONGEST[-1]]]
FALLING_AND_FAULTY = [with_figures(FALLING, place, FAULTY[0]) for place in (0, 2)]

# These; days of zeros, which are equal; and counts that no account has, some of which the lowest 32
# bits would hide.
FAULTY_ACCOUNTS = [
    *FAULTY_HELD,
    *map(account_of, (*NOT_RISING, *FALLING_AND_FAULTY)),
    account_of([], 2),
    account_of(WORKED[:1], 31),
    account_of(LONGEST, 32),
    *(account_of(THREE, count) for count in (2**32, 2**32 + 3, 2**64 - 1)),
]

# A day of zeros; figures at their bounds; many days; and slots past the count, which are no part of
# the month.
SOUND_ACCOUNTS = [
    account_of([], 1),
    account_of(numbered([*AT_BOUNDS, *EACH_GREATEST])),
    account_of(numbered(LONGEST[:30])),
    account_of([*numbered(LONGEST[:30]), WORKED[0]], 30),
    account_of([*WORKED, *FAULTY, *FALLING], 2),
    account_of(LONGEST[::-1], 0),
]

# Months whose statements are lent too little, just enough, and more.
STATED = [[], WORKED, LONGEST]


def rooms(days):
    size = len(statement(days))
    return [0, size - 1, size, size + 1]


def some_day(chance, number):
    *four, _, variation, request = (some(chance, bound) for bound in BOUNDS)
    return sound_day(number, four, (variation, request))


def some_account(chance):
    """A few days that rise, and maybe others past the count."""
    numbers = sorted(chance.sample(DAY_NUMBER, chance.randint(2, 6)))
    days = [some_day(chance, number) for number in numbers]
    return account_of(days, chance.randint(1, len(days)))


def answer_take_in(account, day):
    return [], "", take_in(account, day)


# Day 3 again: it is not later, and of the second a figure is at fault too.
AGAIN = [sound_day(3), charged(sound_day(3, (0, 0, 0, 1)), 0)]

# New days about the last one held, and at the ends of the numbers.
NEW_NUMBERS = [
    *([account_of(WORKED), day] for day in (sound_day(2), *AGAIN, sound_day(4))),
    *([EMPTY, sound_day(number)] for number in (0, LAST)),
    *([account_of([], 1), sound_day(number)] for number in (0, 1)),
    *([account_of(LONGEST[-2:-1]), sound_day(number)] for number in (0, LAST - 1, LAST)),
    *([account_of(LONGEST[-1:]), sound_day(number)] for number in (0, LAST)),
]

# One fault of the account and one of the new day: a figure, or a number that is not later.
TWO_FAULTS = [
    [account, day]
    for account in (account_of(FALLING), FAULTY_HELD[1], account_of(FALLING, 32))
    for day in (FAULTY[0]._replace(number=9), sound_day(5))
]


def take_in_cases(chance):
    new_days = [day._replace(number=4) for day in (*AT_BOUNDS, *EACH_GREATEST, *FAULTY)]
    return [
        [EMPTY, WORKED[0]],
        [account_of(WORKED[:1]), WORKED[1]],
        *NEW_NUMBERS,
        *TWO_FAULTS,
        *([account_of(WORKED), day] for day in new_days),
        *([account, LATER] for account in (*SOUND_ACCOUNTS, *FAULTY_ACCOUNTS)),
        # a 30th, a 31st and a 32nd day, and one that is not later either
        *([account_of(numbered(LONGEST[:days])), LATER] for days in (29, 30, 31)),
        [account_of(LONGEST), LATER],
        *([some_account(chance), some_day(chance, LAST)] for _ in range(2)),
    ]


def answer_total_up(account):
    return total_up(account), "", account


def total_up_cases(chance):
    accounts = [*map(account_of, STATED), *SOUND_ACCOUNTS, *FAULTY_ACCOUNTS]
    return [[account] for account in (*accounts, *(some_account(chance) for _ in range(2)))]


def answer_close(account, room):
    text, closed = close(account, room)
    return [len(text)], text, closed


def close_cases(chance):
    sound = [*SOUND_ACCOUNTS, *(some_account(chance) for _ in range(2))]
    return [
        *([account_of(days), room] for days in STATED for room in rooms(days)),
        *([account, chance.choice(rooms(held(account))[2:])] for account in sound),
        *([account, chance.choice((0, AMPLE))] for account in FAULTY_ACCOUNTS[1::2]),
    ]


def answer_list(numbers, room):
    text = list_month(numbers, room)
    return [len(text)], text, None


# Rows that don't rise, and numbers that no day has; another fault in the row itself, before it and
# after it; and a row too many, alone, with another fault, and after one.
FAULTY_ROWS = [
    *NOT_RISING,
    *([WORKED[0], sound_day(number)] for number in (LAST + 1, 2**64 - 1)),
    [THREE[2], FAULTY[0]],
    [THREE[0], THREE[0], FAULTY[0]],
    [*with_figures(THREE, 1, FAULTY[0]), THREE[1]],
    numbered([*LONGEST, LATER]),
    [*LONGEST, LONGEST[0]],
    [LONGEST[0], *LONGEST, LATER],
]


def list_cases(chance):
    sound = [
        WORKED[:1],
        [NO_DAY, sound_day(LAST)],
        numbered(LONGEST[:30]),
        *(held(some_account(chance)) for _ in range(2)),
    ]
    faulty = [*FAULTY_ROWS, *(with_figures(THREE, 1, day) for day in chance.sample(FAULTY, 4))]
    # the whole row among them is at fault too
    cut = [rows_of([FAULTY[0], WORKED[0]])[:length] for length in (1, 7, 9, 15)]
    return [
        *([rows_of(days), room] for days in STATED for room in rooms(days)),
        *([rows_of(days), chance.choice(rooms(days)[2:])] for days in sound),
        *([numbers, chance.choice((0, AMPLE))] for numbers in (*map(rows_of, faulty), *cut)),
    ]


def hand_in(days):
    """Each day's refusal, 0 for none, and the account after them all."""
    account, refused = EMPTY, []
    for day in days:
        try:
            account = take_in(account, day)
            refused.append(0)
        except Refusal as refusal:
            refused.append(refusal.number)
    return refused, account


def answer_hand_in(days):
    refused, account = hand_in(days)
    return [*refused, ":", *total_up(account)], "", account


def some_month(chance, count):
    """Days that mostly rise, some of them with a figure at fault."""
    number, days = 0, []
    for _ in range(count):
        number = max(number + chance.choice((-1, 0, 1, 1, 2, 3)), 0)
        faulty = chance.choice(FAULTY)._replace(number=number)
        days.append(chance.choice((some_day(chance, number), some_day(chance, number), faulty)))
    return days


def hand_in_cases(chance):
    return [
        [[*WORKED, *AGAIN, LATER]],
        [[]],
        [FAULTY[:3]],
        [numbered([*LONGEST, LATER, LATER])],
        *([some_month(chance, count)] for count in (8, 31, 45)),
    ]


BY_VALUE = (
    MonthRoutine("take_in", (InAccount(), OneDay()), 0, answer_take_in, take_in_cases),
    MonthRoutine("total_up", (InAccount(),), len(NO_FIGURES), answer_total_up, total_up_cases),
    MonthRoutine("close", (InAccount(), Lent(BYTES)), 1, answer_close, close_cases),
)


def where_it_is(routine):
    """The same of an account that is updated where it is, with every third of the cases."""

    def cases(chance):
        return routine.cases(chance)[1::3]

    return routine._replace(name=f"record_{routine.name}", cases=cases)


ROUTINES = (
    *BY_VALUE,
    *map(where_it_is, BY_VALUE),
    MonthRoutine("list_month", (Numbers(), Lent(BYTES)), 1, answer_list, list_cases),
    MonthRoutine("hand_in", (Days(),), 0, answer_hand_in, hand_in_cases),
)
