"""The cases of the routines on a day in memory reach every refusal, and fit the program that reads
them."""

import unittest

from days import full_day, make_day
from filecases import BYTES, NUMBERS
from support import CasesTest
from valuecases import InMemory, lent_in
from vectors import PROGRAMS, input_of

# What the program `valuevectors` has room for.
MOST_WORDS = 16_384
MOST_NUMBERS = 10_721
MOST_ROOM = {NUMBERS: 65, BYTES: 1_100}

# 0 where accepted, or where nothing is refused.
REFUSALS = {
    "number_at": {0},
    "check_row": {0, 9, 3},
    "shipper_at": {0, 9, 3},
    "point_at": {0, 9, 3},
    "check_column": {0, 9, 3, 7},
    "shipper_column": {0, 9, 3, 7},
    "share_numbers": {0, 9, 3, 4, 7},
    "check_meter": {0, 9, 3},
    "meter_figures": {0, 9, 3},
    "meter_yesterday": {0},
    "meter_hours": {0},
    "meter_delivered": {0, 9, 3, 7},
    "put_hour": {0},
    "decimal_of": {0, 3},
    "check_excused": {0, 9, 3},
    "excused_shipper": {0, 9, 3},
    "excused_row": {0},
    "excused_yesterday": {0},
    "excused_hours": {0},
}


def days_in(routine, case):
    return [day for field, day in zip(routine.fields, case) if isinstance(field, InMemory)]


def spare_of(routine, case):
    """How much longer each lent list is than what goes to it."""
    _, answers = routine.answer(*case)
    return [room - len(given) for (_, room), given in zip(lent_in(routine, case), answers)]


class ValueVectors(CasesTest, unittest.TestCase):
    program = PROGRAMS[2]
    refusals = REFUSALS

    def test_size(self):
        """No case is too long for the program, no list and no room too large."""
        for routine, cases in self.cases:
            for case, _ in cases:
                self.assertLessEqual(len(input_of(1, routine, case)), 4 * (1 + MOST_WORDS))
                for day in days_in(routine, case):
                    self.assertLessEqual(len(day.numbers), MOST_NUMBERS)
                for block, room in lent_in(routine, case):
                    self.assertIn(room, range(MOST_ROOM[block] + 1))

    def test_limits(self):
        """Each table at its most rows and one more, for each routine that counts them."""
        for routine, cases in self.cases:
            if {9, 3} <= REFUSALS[routine.name]:
                counts = [day.counts for case, _ in cases for day in days_in(routine, case)]
                for index, most in enumerate((64, 32, 512, 64, 64)):
                    reached = {count[index] for count in counts}
                    self.assertLessEqual({most, most + 1}, reached, routine.name)

    def test_room(self):
        """Where an answer fits, each lent list is as long or longer; where it does not, one is
        empty, or one element short."""
        for routine, cases in self.cases:
            if 7 in REFUSALS[routine.name] and lent_in(routine, cases[0][0]):
                fits = [case for case, number in cases if number == 0]
                for spare in zip(*(spare_of(routine, case) for case in fits)):
                    self.assertLessEqual({0, 1}, set(spare), routine.name)
                short = [case for case, number in cases if number == 7]
                rooms = {room for case in short for _, room in lent_in(routine, case)}
                self.assertTrue(0 in rooms and len(rooms) > 1, routine.name)


class Spelling(unittest.TestCase):
    def test_days(self):
        """Numbers are told up to the last above zero."""
        day = make_day((1, 2, 3), [(7, 0, 2**32, 5, 0, 0)])
        words = [1, 2, 3, 1, 0, 0, 0, 0, 6, 16, 7, 0, 0, 5, 12, 0, 0, 1]
        self.assertEqual(words, InMemory().words(day))
        self.assertEqual([1, 300, 100, 0, 0, 0, 0, 0, 0, 0, 0], InMemory().words(make_day()))
        self.assertEqual(9 + 2 + 10_720, len(InMemory().words(full_day())))
