"""Cases of a routine on a day's numbers: a day in memory among its arguments, and lent lists."""

from typing import Callable, NamedTuple

from cases import word
from filecases import Block, Halves
from refusals import Refusal


class InMemory(NamedTuple):
    """A day: its head and counts, then how many numbers it has, and these up to the last above
    zero, each half as a byte string."""

    def words(self, day):
        above_zero = [place for place, number in enumerate(day.numbers, 1) if number > 0]
        told = day.numbers[: max(above_zero, default=0)]
        return [*day.head, *day.counts, *word(len(day.numbers)), *Halves().words(told)]


class Lent(NamedTuple):
    """How many elements of a lent list or block there are."""

    block: Block

    def words(self, room):
        return word(room)


class ValueRoutine(NamedTuple):
    """Its name in the library; its arguments; the second program's answer, as figures and what
    goes to each lent list; and its cases by chance."""

    name: str
    fields: tuple
    answer: Callable
    cases: Callable


def lent_in(routine, case):
    """Each lent list's kind and room."""
    pairs = zip(routine.fields, case)
    return [(field.block, room) for field, room in pairs if isinstance(field, Lent)]


def words_of(routine, case):
    """01's number and place, the figures where accepted, and each lent list whole."""
    lent = lent_in(routine, case)
    try:
        figures, answers = routine.answer(*case)
        words = [0, 0, *figures]
    except Refusal as refusal:
        words, answers = [refusal.number, refusal.place], [[] for _ in lent]
    for (block, room), answer in zip(lent, answers):
        words.extend(block.spell(block.after(answer, room)))
    return words
