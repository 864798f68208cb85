"""Cases of a routine on files: byte strings among its arguments, and a lent block of numbers or of
bytes."""

from random import Random
from typing import Callable, NamedTuple, Optional

from cases import LENT, SEED, WORD, Room, word
from refusals import Refusal


class Bytes(NamedTuple):
    """A byte string: how many bytes, then the bytes, filled up to a whole word."""

    def words(self, given):
        starts = range(0, len(given), 4)
        parts = [int.from_bytes(given[at : at + 4].ljust(4, b"\0"), "big") for at in starts]
        return [*word(len(given)), *parts]


class Halves(NamedTuple):
    """Numbers of 64 bits: the lower halves, then the higher ones up to the last above zero, each
    list as a byte string."""

    def words(self, numbers):
        large = [place for place, number in enumerate(numbers, 1) if number > WORD[-1]]
        lower = [number & WORD[-1] for number in numbers]
        higher = [number >> 32 for number in numbers[: max(large, default=0)]]
        return [4 * len(lower), *lower, 4 * len(higher), *higher]


class Block(NamedTuple):
    """What each element of a lent block is before the call, and how its elements are spelled."""

    lent: int
    spell: Callable

    def after(self, answer, room):
        """The block after the call: the answer at its front, and the rest as it was lent."""
        return [*answer, *[self.lent] * (room - len(answer))]

    def words(self, answer, room):
        """Up to the last element that is not as it was lent, then how many are kept after it."""
        block = self.after(answer, room)
        kept = 0
        while kept < room and block[room - kept - 1] == self.lent:
            kept += 1
        return [*self.spell(block[: room - kept]), "kept", kept]


def in_decimal(numbers):
    return [":", *numbers]


def in_hexadecimal(given):
    return [":" + bytes(given).hex()]


NUMBERS = Block(LENT, in_decimal)
BYTES = Block(255, in_hexadecimal)


class FileRoutine(NamedTuple):
    """Its name in the library; its arguments; the second program's answer, as figures and what
    goes to the lent block; its cases by chance; and the lent block, where it has one."""

    name: str
    fields: tuple
    answer: Callable
    cases: Callable
    block: Optional[Block] = BYTES


def cases_of(routine):
    return routine.cases(Random(f"{SEED} {routine.name}"))


def room_of(routine, case):
    return next(room for field, room in zip(routine.fields, case) if isinstance(field, Room))


def words_of(routine, case):
    """01's number and place, the figures where accepted, and the lent block, or the part."""
    try:
        figures, answer = routine.answer(*case)
        figures = [0, 0, *figures]
    except Refusal as refusal:
        figures, answer = [refusal.number, refusal.place], []
    if routine.block is None:
        return [*figures, *answer]
    return [*figures, *routine.block.words(answer, room_of(routine, case))]
