"""The cases reach every refusal of every routine, and every kind of lent list."""

import unittest

from cases import MOST_ROWS, Room, Rows, answer_of, cases_of
from vectors import PROGRAMS, input_of

ROUTINES = PROGRAMS[0].routines

# What the program `vectors` has room for.
MOST_WORDS = 512

# 0 where accepted.
NUMBERS = {
    "share_round": {0, 9, 3, 7},
    "share_day": {0, 9, 3, 4, 7},
    "share_hour": {0, 9, 3, 6, 7},
    "share_general": {0, 3, 11, 10, 7},
    "share_heater": {0, 3, 10, 7},
    "imbalance_fuel": {0, 3},
    "hourly_overrun": {0, 3},
    "twelve_hourly_overrun": {0, 9, 3},
    "daily_overruns": {0, 3},
    "overruns_of_day": {0, 3},
    "overrun_charge": {0, 3},
    "variation_charge": {0, 3},
    "request_charge": {0, 3},
    "escalate": {0, 3, 10, 8},
}


def arguments_of(routine, case, kind):
    return [argument for field, argument in zip(routine.fields, case) if isinstance(field, kind)]


class Vectors(unittest.TestCase):
    def test_numbers(self):
        self.assertEqual(list(NUMBERS), [routine.name for routine in ROUTINES])
        for routine in ROUTINES:
            numbers = {answer_of(routine, case)[0][0] for case in cases_of(routine)}
            self.assertEqual(NUMBERS[routine.name], numbers, routine.name)

    def test_same_seed(self):
        for routine in ROUTINES:
            self.assertEqual(cases_of(routine), cases_of(routine), routine.name)

    def test_room(self):
        """Each lent list is shorter than the answer, as long, and longer."""
        for routine in ROUTINES:
            lent = [
                [room - len(rows) for room in arguments_of(routine, case, Room)]
                for case in cases_of(routine)
                for rows in arguments_of(routine, case, Rows)[:1]
            ]
            for spare in zip(*lent):
                self.assertLessEqual({-1, 0, 1}, set(spare), routine.name)

    def test_size(self):
        """No case is too long for the program."""
        for routine in ROUTINES:
            for case in cases_of(routine):
                self.assertLessEqual(len(input_of(1, routine, case)), 4 * (1 + MOST_WORDS))
                for argument in arguments_of(routine, case, Rows):
                    self.assertLessEqual(len(argument), MOST_ROWS)
                for room in arguments_of(routine, case, Room):
                    self.assertIn(room, range(MOST_ROWS + 1))
