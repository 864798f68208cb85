"""A shipper's month: its bounds and worked figures, what is refused, and what the sums are."""

import random
import unittest

from bounds import BACKHAUL_METERED, GIGAJOULES, MEGAJOULES, RATE, REQUESTS
from month import BOUNDS, EMPTY, NO_DAY, Account, AccountDay, Figures, close, list_month, take_in, total_up
from monthcases import LONGEST, WORKED, account_of, hand_in, numbered, rows_of, some_month, sound_day
from overruns import BackhaulMetered, Schedules, Sides, day_overruns
from support import RuleTest
from tariff import REQUEST_RATE, VARIATION_RATE, request_charge, variation_charge

GREATEST = (
    2_400_000_000,
    28_800_000_000,
    4_800_000_000,
    4_800_000_000,
    28_800_000_000,
    100_000_000_000,
    100_000_000,
)

TEXT = "1 0 288000 0 0 288000 408 0\n3 5 0 7 2 7 0 362710\nTOTAL 5 288000 7 2 288007 408 362710\n"


def day(number, *figures):
    return AccountDay(number, Figures(*figures))


def changed(place, figure):
    """The greatest figures, one of them changed."""
    return day(9, *GREATEST[:place], figure, *GREATEST[place + 1 :])


class Bounds(RuleTest):
    def test_numbers(self):
        self.assertEqual(GREATEST, tuple(bound[-1] for bound in BOUNDS))

    def test_rules_reach_them(self):
        hours = [MEGAJOULES[-1]] * 24
        backhaul = BackhaulMetered(*[BACKHAUL_METERED[-1]] * 2)
        overruns = day_overruns(0, 0, hours[:11], Sides(hours, hours), Schedules(0, 0, 0, 0), backhaul)
        variation = variation_charge(RATE[-1], 0, GIGAJOULES[-1], 0, 0)
        self.assertEqual(
            GREATEST, (*overruns, variation, request_charge(RATE[-1], REQUESTS[-1]))
        )

    def test_one_above_is_refused(self):
        """By every routine, as a new day and as one that is held."""
        take_in(EMPTY, day(9, *GREATEST))
        for place, greatest in enumerate(GREATEST):
            above = changed(place, greatest + 1)
            self.refused(3, 0, take_in, EMPTY, above)
            self.refused(3, 0, take_in, account_of([above]), sound_day(10))
            self.refused(3, 0, total_up, account_of([above]))
            self.refused(3, 0, close, account_of([above]), 0)
            self.refused(3, 0, list_month, rows_of([above]), 0)

    def test_chargeable_is_the_greatest_of_the_four(self):
        for four in ((7, 6, 6, 6), (6, 7, 6, 6), (6, 6, 7, 6), (6, 6, 6, 7), (7, 7, 7, 7)):
            take_in(EMPTY, day(1, *four, 7, 0, 0))
            for chargeable in (0, 6, 8, sum(four)):
                self.refused(3, 0, take_in, EMPTY, day(1, *four, chargeable, 0, 0))


class Worked(RuleTest):
    def test_charges(self):
        self.assertEqual(408, variation_charge(VARIATION_RATE, 0, 100, 0, 0))
        self.assertEqual(362_710, request_charge(REQUEST_RATE, 10))

    def test_statement(self):
        refused, account = hand_in(WORKED)
        self.assertEqual(([0, 0], account_of(WORKED)), (refused, account))
        self.assertEqual((5, 288_000, 7, 2, 288_007, 408, 362_710), total_up(account))
        self.assertEqual((TEXT, EMPTY), close(account))
        self.assertEqual(TEXT, list_month(rows_of(WORKED)))

    def test_day_3_again(self):
        self.refused(5, 0, take_in, account_of(WORKED), sound_day(3))
        self.refused(3, 0, take_in, account_of(WORKED), day(3, 0, 0, 0, 1, 0, 0, 0))

    def test_no_days(self):
        self.assertEqual(("TOTAL 0 0 0 0 0 0 0\n", EMPTY), close(EMPTY, 20))
        self.assertEqual((0,) * 7, total_up(EMPTY))
        self.assertEqual("TOTAL 0 0 0 0 0 0 0\n", list_month([]))

    def test_longest_statement(self):
        days = [day(4_294_967_265 + later, *GREATEST) for later in range(31)]
        self.assertEqual(LONGEST, days)
        text, _ = close(account_of(days), 2_916)
        self.assertEqual(2_916, len(text))
        self.assertTrue(text.startswith("4294967265 2400000000 28800000000 4800000000 "))
        self.assertTrue(
            text.endswith(
                "\nTOTAL 74400000000 892800000000 148800000000 148800000000 892800000000 3100000000000 3100000000\n"
            )
        )
        self.refused(7, 0, close, account_of(days), 2_915)


class Accounts(RuleTest):
    def account_refused(self, number, account):
        """The same of every routine, whatever the room."""
        self.refused(number, 0, total_up, account)
        self.refused(number, 0, close, account)
        self.refused(number, 0, close, account, 0)

    def test_counts(self):
        for count in (32, 2**32, 2**64 - 1):
            self.account_refused(3, Account(count, tuple(LONGEST)))
            self.refused(3, 0, take_in, Account(count, EMPTY.slots), sound_day(9))

    def test_zero_slots(self):
        """One day 0 is sound, two are equal."""
        self.assertEqual((0,) * 7, total_up(account_of([], 1)))
        self.account_refused(5, account_of([], 2))
        self.refused(5, 0, take_in, account_of([], 1), NO_DAY)
        self.refused(3, 0, take_in, account_of([], 31), sound_day(9))

    def test_days_rise(self):
        for numbers in ((3, 3), (3, 2), (1, 5, 4, 9), (0, 2**32 - 1, 2**32 - 1)):
            account = account_of([sound_day(number) for number in numbers])
            self.account_refused(5, account)
            self.refused(5, 0, take_in, account, sound_day(20))
        for number in (0, 4, 5):
            self.refused(5, 0, take_in, account_of([sound_day(5)]), sound_day(number))

    def test_slots_past_the_count_are_no_part(self):
        slots = (*WORKED, *[day(0, *[2**64 - 1] * 7)] * 29)
        account = Account(2, slots)
        self.assertEqual((TEXT, EMPTY), close(account, len(TEXT)))
        taken = take_in(account, sound_day(4))
        self.assertEqual(Account(3, (*slots[:2], sound_day(4), *slots[3:])), taken)

    def test_days_of_a_month(self):
        refused, account = hand_in(numbered([NO_DAY] * 33))
        self.assertEqual([*[0] * 31, 3, 3], refused)
        self.assertEqual(account_of(numbered([NO_DAY] * 31)), account)

    def test_3_before_5(self):
        """Whether the account or the new day is at fault."""
        falling = account_of([sound_day(5), sound_day(4)])
        faulty = account_of([changed(0, GREATEST[0] + 1)])
        both = account_of([sound_day(9), *faulty.slots[:1]])
        self.refused(3, 0, take_in, falling, changed(6, GREATEST[6] + 1))
        self.refused(3, 0, take_in, faulty, sound_day(9))
        self.refused(3, 0, take_in, account_of(LONGEST), sound_day(0))
        self.refused(3, 0, take_in, both, sound_day(9))
        self.account_refused(3, both)

    def test_room(self):
        for room in (len(TEXT), len(TEXT) + 1):
            close(account_of(WORKED), room)
        for room in (0, len(TEXT) - 1):
            self.refused(7, 0, close, account_of(WORKED), room)
            self.refused(7, 0, list_month, rows_of(WORKED), room)


class Lists(RuleTest):
    def test_rows_are_whole(self):
        for length in (1, 7, 9, 15, 17):
            self.refused(9, 0, list_month, [2**64 - 1] * length, 0)

    def test_numbers(self):
        ends = [sound_day(0), sound_day(2**32 - 1)]
        self.assertTrue(list_month(rows_of(ends)).startswith("0 0 0 0 0 0 0 0\n4294967295 0 "))
        self.refused(3, 0, list_month, rows_of([sound_day(2**32)]), 0)
        self.refused(3, 1, list_month, rows_of([*ends[:1], sound_day(2**64 - 1)]), 0)

    def test_32nd_row(self):
        self.refused(3, 31, list_month, rows_of([*LONGEST, sound_day(0)]), 0)

    def test_earliest_row(self):
        above = changed(5, GREATEST[5] + 1)
        self.refused(5, 1, list_month, rows_of([sound_day(3), sound_day(3), above]), 0)
        self.refused(3, 1, list_month, rows_of([sound_day(3), above, sound_day(3)]), 0)
        self.refused(3, 1, list_month, rows_of([sound_day(9), above]), 0)
        self.refused(5, 2, list_month, rows_of([*WORKED, *[NO_DAY] * 40]), 0)


class Laws(unittest.TestCase):
    def setUp(self):
        self.chance = random.Random(20_190_101)

    def test_sums_are_over_the_days_accepted(self):
        found = set()
        for _ in range(200):
            days = some_month(self.chance, self.chance.randint(0, 120))
            refused, account = hand_in(days)
            accepted = [one for one, number in zip(days, refused) if number == 0]
            self.assertEqual(account_of(accepted), account)
            total = [sum(one.figures[place] for one in accepted) for place in range(7)]
            self.assertEqual(total, [*total_up(account)])
            self.assertEqual(close(account)[0], list_month(rows_of(accepted)))
            self.each_is_refused_by_its_own_fault(days, refused)
            found.update(refused)
        self.assertEqual({0, 3, 5}, found)

    def each_is_refused_by_its_own_fault(self, days, refused):
        """What is handed in so far is sound, so only the new day can be at fault."""
        taken, last = 0, -1
        for (number, figures), found in zip(days, refused):
            *four, chargeable, _, _ = figures
            within = all(figure <= most for figure, most in zip(figures, GREATEST))
            if taken == 31 or not within or chargeable != max(four):
                self.assertEqual(3, found)
            elif number <= last:
                self.assertEqual(5, found)
            else:
                self.assertEqual(0, found)
                taken, last = taken + 1, number
