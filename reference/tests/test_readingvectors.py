"""The cases of a day's readings reach every refusal, and fit the program that reads them."""

import unittest

from readingcases import SOUND, UNREAD, Given, GivenHours, bits_of, littered, measured, substituted
from readings import MEASURED, MISSING, SUBSTITUTED
from support import CasesTest
from vectors import PROGRAMS, input_of, line_of

# The routine's number, and five words for each hour.
WORDS = 121

# 0 where accepted.
REFUSALS = {"meter_day": {0, 3, 5}}


class ReadingVectors(CasesTest, unittest.TestCase):
    program = PROGRAMS[4]
    refusals = REFUSALS

    def hours(self):
        return [hour for _, cases in self.cases for (hours,), _ in cases for hour in hours]

    def test_size(self):
        for routine, cases in self.cases:
            for case, _ in cases:
                self.assertEqual(4 * (1 + WORDS), len(input_of(1, routine, case)))

    def test_places(self):
        """The first hours, a middle one and the last are refused, and others."""
        for routine, cases in self.cases:
            answers = [self.program.words_of(routine, case) for case, _ in cases]
            places = {place for number, place, *_ in answers if number}
            self.assertLessEqual({0, 1, 4, 5, 11, 23}, places)

    def test_kinds(self):
        kinds = {hour.kind for hour in self.hours()}
        self.assertLessEqual({MEASURED, SUBSTITUTED, MISSING, 3, 255}, kinds)
        self.assertEqual(255, max(kinds))

    def test_numbers_not_looked_at(self):
        """Some are zeros, and some would be refused."""
        for kind in (SUBSTITUTED, MISSING):
            seconds = {hour.second for hour in self.hours() if hour.kind == kind}
            self.assertLessEqual({0, bits_of(-1.0)}, seconds)
        firsts = {hour.first for hour in self.hours() if hour.kind == MISSING}
        self.assertEqual({0, 0x7FF8 << 48}, firsts)


class Spelling(unittest.TestCase):
    def test_arguments(self):
        hours = [measured(1.0, -0.0), substituted(1 + 2.0**-52), UNREAD, Given(255, 1, 2**63 + 2)]
        words = [0, 0x3FF0_0000, 0, 0x8000_0000, 0, 1, 0x3FF0_0000, 1, 0, 0, 2, *[0] * 4]
        self.assertEqual([*words, 255, 0, 1, 0x8000_0000, 2], GivenHours().words(hours))

    def test_answers(self):
        (meter_day,) = PROGRAMS[4].routines
        thrice, zeros = [measured(2.5, 3.0), substituted(8.9), UNREAD] * 8, " ".join(["0"] * 24)
        energies, volumes = " ".join(["7 8 8"] * 8), " ".join(["2 0 0"] * 8)
        for hours, words in (
            (thrice, f"0 0 184 16 : {energies} : {volumes}"),
            (littered(thrice), f"0 0 184 16 : {energies} : {volumes}"),
            ([UNREAD, *SOUND[1:]], f"5 0 0 0 : {zeros} : {zeros}"),
            ([*SOUND[:-1], Given(3, 0, 0)], f"3 23 0 0 : {zeros} : {zeros}"),
        ):
            self.assertEqual(f"meter_day {words}\n", line_of(PROGRAMS[4], meter_day, [hours]))
