"""Cases of a routine: some arguments by chance, and figures at and beyond their bounds.

A case is the list of a routine's arguments, lent lists by their room alone. Its words are what a
program reads.
"""

from random import Random
from typing import Callable, NamedTuple

from bounds import up_to
from refusals import Refusal

SEED = 20_190_101

# What a lent list holds before the call.
LENT = 4_000_000_000

WORD = up_to(0xFFFF_FFFF)

# A list one row too long, and room for it.
MOST_ROWS = 65

ROWS = (3, 0, 1, 2, 3, 4, 5, 8, 12, 64, 64, MOST_ROWS)
PAIRS = 12


def word(figure):
    return [figure]


def wide(figure):
    """Two words, the higher first."""
    return [figure >> 32, figure & WORD[-1]]


def signed(figure):
    """Whether it is below zero, then how far from it."""
    return [int(figure < 0), abs(figure)]


def put(figures, index, figure):
    """A list with one figure put in place of another."""
    return [*figures[:index], figure, *figures[index + 1 :]]


def some(chance, bound):
    """A number of the bound: often its least, its greatest or a small one."""
    return chance.choice(
        (bound[0], bound[-1], min(bound[-1], chance.randint(1, 20)), chance.choice(bound))
    )


def some_rows(chance, bound, rows):
    return [some(chance, bound) for _ in range(rows)]


def some_bound(chance, bound):
    """Figures of a case are of one size: small, middling or all that the bound allows."""
    return up_to(chance.choice((20, 10_000, bound[-1])))


def some_room(chance, rows):
    """Enough, or one element more."""
    return min(rows + chance.randint(0, 1), MOST_ROWS)


class Figure(NamedTuple):
    bound: range
    spell: Callable = word

    def words(self, figure):
        return self.spell(figure)

    def edges(self, _):
        greatest = self.bound[-1]
        within = [self.bound[0], greatest, greatest + 1]
        if self.spell is signed:
            return [*within, self.bound[0] - 1]
        return [*within, WORD[-1] if self.spell is word else WORD[-1] + 1]


class Room(NamedTuple):
    """How many elements are lent: as many as the answer has, or one more."""

    def words(self, room):
        return word(room)

    def edges(self, room):
        return [0, *range(room - 2, room + 2)]


class Hours(NamedTuple):
    """An hour list of its stated length."""

    bound: range

    def words(self, hours):
        return [part for hour in hours for part in wide(hour)]

    def edges(self, hours):
        beyond = self.bound[-1] + 1
        last = len(hours) - 1
        return [
            put(hours, 0, self.bound[-1]),
            put(hours, last, beyond),
            put(put(hours, 1, beyond), last, beyond),
        ]


class Rows(NamedTuple):
    """A list of any length: how many words, then the words."""

    bound: range
    spell: Callable = word

    def words(self, rows):
        parts = [part for figure in rows for part in self.spell(figure)]
        return [len(parts), *parts]

    def edges(self, rows):
        last = len(rows) - 1
        edges = Figure(self.bound, self.spell).edges(None)
        return [rows[:-1], [*rows, 0], *(put(rows, last, edge) for edge in edges)]


class Routine(NamedTuple):
    """Its name in the library; its arguments; the second program's answer, as figures and what
    goes to each lent list; arguments by chance for so many rows; and further cases."""

    name: str
    fields: tuple
    answer: Callable
    some: Callable
    further: tuple = ()


def answer_of(routine, case):
    """01's number and place, the figures where accepted, and each lent list afterwards."""
    rooms = [room for field, room in zip(routine.fields, case) if isinstance(field, Room)]
    try:
        figures, shares = routine.answer(*case)
        figures = [0, 0, *figures]
    except Refusal as refusal:
        figures, shares = [refusal.number, refusal.place], [[] for _ in rooms]
    lent = [[*given, *[LENT] * (room - len(given))] for given, room in zip(shares, rooms)]
    return figures, lent


def words_of(routine, case):
    """What is answered, then each lent list whole."""
    figures, lent = answer_of(routine, case)
    return [*figures, *(part for rows in lent for part in (":", *rows))]


def is_accepted(routine, case):
    return answer_of(routine, case)[0][0] == 0


def changes(routine, case):
    """For each argument, what may stand in its place."""
    return [field.edges(argument) for field, argument in zip(routine.fields, case)]


def two_changed(chance, edges, case):
    """Two arguments changed at once, so that the order of refusals shows."""
    one, two = chance.randrange(len(case)), chance.randrange(len(case))
    return put(put(case, one, chance.choice(edges[one])), two, chance.choice(edges[two]))


def cases_of(routine):
    chance = Random(f"{SEED} {routine.name}")
    given = [routine.some(chance, rows) for rows in ROWS]
    sound = next(case for case in given if is_accepted(routine, case))
    edges = changes(routine, sound)
    single = [put(sound, index, edge) for index, places in enumerate(edges) for edge in places]
    pairs = [two_changed(chance, edges, sound) for _ in range(PAIRS)]
    return [*map(list, routine.further), *given, *single, *pairs]
