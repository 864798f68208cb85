"""The cases of a shipper's month reach every refusal, and fit the program that reads them."""

import unittest

from month import EMPTY
from monthcases import WORKED, Days, InAccount, Numbers, account_in, account_of, sound_day
from support import CasesTest
from valuecases import lent_in
from vectors import PROGRAMS, input_of, line_of

# What the program `monthvectors` has room for.
MOST_WORDS = 1_024
MOST_ROOM = 2_917

# 0 where accepted, or where nothing is refused.
REFUSALS = {
    "take_in": {0, 3, 5},
    "total_up": {0, 3, 5},
    "close": {0, 3, 5, 7},
    "record_take_in": {0, 3, 5},
    "record_total_up": {0, 3, 5},
    "record_close": {0, 3, 5, 7},
    "list_month": {0, 9, 3, 5, 7},
    "hand_in": {0},
}


class MonthVectors(CasesTest, unittest.TestCase):
    program = PROGRAMS[3]
    refusals = REFUSALS

    def test_size(self):
        """No case is too long for the program, and no block too large."""
        for routine, cases in self.cases:
            for case, _ in cases:
                self.assertLessEqual(len(input_of(1, routine, case)), 4 * (1 + MOST_WORDS))
                for _, room in lent_in(routine, case):
                    self.assertIn(room, range(MOST_ROOM + 1))

    def test_room(self):
        """Where a statement fits, the block is just as long, or a byte longer; where it does not, it
        is empty, or a byte short."""
        for routine, cases in self.cases:
            if 7 in REFUSALS[routine.name]:
                lent = [(lent_in(routine, case)[0][1], case, number) for case, number in cases]
                fits = {room - len(routine.answer(*case)[1]) for room, case, number in lent if number == 0}
                short = [(room, case) for room, case, number in lent if number == 7]
                lacking = {len(routine.answer(*case[:-1], None)[1]) - room for room, case in short}
                self.assertEqual({0, 1}, fits, routine.name)
                self.assertIn(0, [room for room, _ in short], routine.name)
                self.assertIn(1, lacking, routine.name)

    def test_accounts(self):
        """None, some and all of the days, and counts that no account has."""
        for routine, cases in self.cases[:3]:
            counts = {account_in(routine, case).count for case, _ in cases}
            self.assertLessEqual({0, 1, 2, 30, 31, 32}, counts, routine.name)
            self.assertLess(2**32, max(counts), routine.name)


class Spelling(unittest.TestCase):
    def test_arguments(self):
        day = [1, 0, 0, 0, 288_000, 0, 0, 0, 0, 0, 288_000, 0, 408, 0, 0]
        self.assertEqual([1, *day], Days().words(WORKED[:1]))
        self.assertEqual([3, 5, 1, *day], InAccount().words(account_of(WORKED[:1], 3 * 2**32 + 5)))
        self.assertEqual([0, 0, 0], InAccount().words(EMPTY))
        self.assertEqual([2, 0, 7, 1, 0], Numbers().words([7, 2**32]))

    def test_answers(self):
        take_in, total_up, close, *_, list_month, hand_in = PROGRAMS[3].routines
        held, empty = ": 1 1 0 288000 0 0 288000 408 0", "TOTAL 0 0 0 0 0 0 0\n".encode().hex()
        for routine, case, words in (
            (take_in, [EMPTY, WORKED[0]], f"0 0 {held}"),
            (take_in, [account_of(WORKED[:1]), sound_day(1)], f"5 0 {held}"),
            (total_up, [account_of(WORKED[:1])], f"0 0 0 288000 0 0 288000 408 0 {held}"),
            (total_up, [account_of([], 2)], "5 0 0 0 0 0 0 0 0 : 2"),
            (close, [EMPTY, 21], f"0 0 20 :{empty}ff : 0"),
            (close, [account_of(WORKED[:1]), 2], f"7 0 0 :ffff {held}"),
            (list_month, [[], 21], f"0 0 20 :{empty}ff"),
            (list_month, [[1], 0], "9 0 0 :"),
            (hand_in, [[WORKED[0], sound_day(1)]], f"0 0 0 5 : 0 288000 0 0 288000 408 0 {held}"),
        ):
            self.assertEqual(f"{routine.name} {words}\n", line_of(PROGRAMS[3], routine, case))
