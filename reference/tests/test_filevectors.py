"""The cases of the routines on files reach every refusal, and fit the program that reads them."""

import unittest

from filecases import BYTES, NUMBERS, Bytes, Halves, room_of
from support import CasesTest
from vectors import PROGRAMS, input_of

# What the program `filevectors` has room for.
MOST_WORDS = 16_384
MOST_ROOM = {NUMBERS: 10_721, BYTES: 40_976}

# 0 where accepted.
REFUSALS = {
    "read_day": {0, 1, 2, 3, 4, 5, 7},
    "write_day": {0, 9, 3, 5, 4, 7},
    "check_entries": {0, 1, 2, 3, 5},
    "entries_of_point": {0},
    "refusal_line": {0, 7},
    "list_shares": {0, 1, 2, 3, 4, 5, 7},
    "list_charges": {0, 1, 2, 3, 4, 5, 7},
    "list_points": {0, 1, 2, 3, 4, 5, 7},
}


class FileVectors(CasesTest, unittest.TestCase):
    program = PROGRAMS[1]
    refusals = REFUSALS

    def test_size(self):
        """No case is too long for the program, and no block too large."""
        for routine, cases in self.cases:
            for case, _ in cases:
                self.assertLessEqual(len(input_of(1, routine, case)), 4 * (1 + MOST_WORDS))
                if routine.block is not None:
                    self.assertIn(room_of(routine, case), range(MOST_ROOM[routine.block] + 1))

    def test_room(self):
        """Where an answer fits, the lent block is as long or longer; where it does not, it is empty
        or not."""
        for routine, cases in self.cases:
            if routine.block is not None:
                fits = [case for case, number in cases if number == 0]
                spare = {room_of(routine, case) - len(routine.answer(*case)[1]) for case in fits}
                self.assertLessEqual({0, 1}, spare, routine.name)
                short = {room_of(routine, case) for case, number in cases if number == 7}
                self.assertTrue(0 in short and len(short) > 1, routine.name)


class Spelling(unittest.TestCase):
    def test_bytes(self):
        self.assertEqual([0], Bytes().words(b""))
        self.assertEqual([4, 0x01020304], Bytes().words(b"\1\2\3\4"))
        self.assertEqual([5, 0x01020304, 0x05000000], Bytes().words(b"\1\2\3\4\5"))

    def test_halves(self):
        self.assertEqual([8, 7, 9, 0], Halves().words([7, 9]))
        self.assertEqual([12, 7, 0, 9, 8, 0, 0x100], Halves().words([7, 0x100 << 32, 9]))

    def test_blocks(self):
        self.assertEqual([":", "kept", 3], NUMBERS.words([], 3))
        self.assertEqual([":", 7, 0, "kept", 1], NUMBERS.words([7, 0], 3))
        self.assertEqual([":07ff00", "kept", 0], BYTES.words(b"\7\xff\0", 3))
        self.assertEqual([":07", "kept", 2], BYTES.words(b"\7\xff", 3))
