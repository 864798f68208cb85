"""Laws by random trial, with a fixed seed."""

import random
import unittest

from bounds import GIGAJOULES, MEGAJOULES, ROUND_CAPACITY, SYSTEM_USE
from cases import some, some_rows
from dayfile import read_day, write_day
from days import some_day, some_shippers
from dayshares import free_flow_mdq, share_day
from overruns import Sides, hourly_overrun, twelve_hourly_overrun
from pointshares import hour_at_point
from refusals import Refusal
from rounds import GREATEST_LEVEL, one_round, shares_at
from usegas import general_gas


class Laws(unittest.TestCase):
    def setUp(self):
        self.chance = random.Random(20_190_101)


class RoundLaws(Laws):
    def test_round(self):
        for _ in range(400):
            rows = self.chance.randint(0, 8)
            capacity = some(self.chance, ROUND_CAPACITY)
            weights = some_rows(self.chance, GIGAJOULES, rows)
            needs = some_rows(self.chance, GIGAJOULES, rows)
            level, shares = one_round(capacity, weights, needs)
            self.assertEqual(shares_at(weights, needs, level), shares)
            self.assertLessEqual(sum(shares), capacity)
            self.level_is_maximal(capacity, weights, needs, level)
            self.all_get_their_part(capacity, weights, needs, shares)

    def level_is_maximal(self, capacity, weights, needs, level):
        if level < GREATEST_LEVEL:
            self.assertGreater(sum(shares_at(weights, needs, level + 1)), capacity)
        else:
            self.assertEqual(GREATEST_LEVEL, level)

    def all_get_their_part(self, capacity, weights, needs, shares):
        """A row is at most one gigajoule below its pro-rata part, or has all it needs."""
        for weight, need, share in zip(weights, needs, shares):
            self.assertLessEqual(share, need)
            part = capacity * weight // max(sum(weights), 1)
            self.assertTrue(share == need or share >= part - 1 or weight == 0)


class DayLaws(Laws):
    def test_day(self):
        for _ in range(200):
            rows = some_shippers(self.chance)
            lists = [[row[index] for row in rows] for index in range(1, 6)]
            free_flow, compressor = some_rows(self.chance, GIGAJOULES, 2)
            day = share_day(free_flow, compressor, *lists)
            self.within_schedules(day, *lists[2:])
            self.nothing_is_lost(free_flow + compressor, day)
            self.classes_wait(day, *lists[2:])
            self.round_one_is_the_round(free_flow, lists, day)

    def within_schedules(self, day, *schedules):
        for given, scheduled in zip((day.firm, day.auction, day.lower_tier), schedules):
            self.assertEqual(len(scheduled), len(given))
            self.assertTrue(all(0 <= share <= most for share, most in zip(given, scheduled)))

    def nothing_is_lost(self, capacity, day):
        totals = (sum(day.firm), sum(day.auction), sum(day.lower_tier))
        self.assertEqual(totals, day.totals)
        self.assertEqual(capacity, sum(totals) + day.left)
        self.assertGreaterEqual(day.left, 0)

    def classes_wait(self, day, firm, auction, _):
        if day.firm != firm:
            self.assertEqual((0, 0, [0, 0]), (*day.totals[1:], day.levels[3:]))
        elif day.auction != auction:
            self.assertEqual((0, 0), (day.totals.lower_tier, day.levels[4]))

    def round_one_is_the_round(self, free_flow, lists, day):
        weights = [free_flow_mdq(mdq) for mdq in lists[0]]
        self.assertEqual(one_round(free_flow, weights, lists[2]).level, day.levels[0])

    def test_short_firm_class_leaves_less_than_its_rows(self):
        """Round three gives out what the first two left, up to less than one gigajoule a row."""
        for _ in range(200):
            mdqs = [self.chance.randint(1, 50) for _ in range(self.chance.randint(1, 6))]
            schedules = [self.chance.randint(0, 60) for _ in mdqs]
            capacities = self.chance.randint(0, 90), self.chance.randint(0, 90)
            zeros = [0] * len(mdqs)
            day = share_day(*capacities, mdqs, zeros, schedules, zeros, zeros)
            if day.firm != schedules:
                self.assertLess(day.left, len(mdqs))


class RatioLaws(Laws):
    def test_point(self):
        """The shares fall short of the capacity by fewer MJ than there are shippers."""
        for _ in range(400):
            rows = self.chance.randint(1, 8)
            capacity = some(self.chance, MEGAJOULES)
            entitlements = some_rows(self.chance, MEGAJOULES, rows)
            mdqs = some_rows(self.chance, GIGAJOULES, rows)
            try:
                shares = hour_at_point(capacity, entitlements, mdqs)
            except Refusal as refusal:
                self.assertEqual((6, 0), (refusal.number, sum(mdqs)))
                continue
            self.assertIn(capacity - sum(shares), range(rows))

    def test_general_gas(self):
        for _ in range(400):
            schedules = some_rows(self.chance, GIGAJOULES, self.chance.randint(1, 8))
            foundation = self.chance.choice((255, len(schedules) - 1))
            sug = some(self.chance, SYSTEM_USE)
            try:
                shares = general_gas(sug, 0, foundation, schedules)
            except Refusal as refusal:
                self.assertEqual(10, refusal.number)
                continue
            self.assertIn(sug - sum(shares), range(len(schedules)))
            self.assertTrue(foundation == 255 or shares[foundation] == 0)


class OverrunLaws(Laws):
    def test_hourly_takes_each_hour_for_itself(self):
        for _ in range(100):
            m = self.chance.randint(0, 100)
            delivered, received = ([self.chance.randint(0, 9_000) for _ in range(24)] for _ in range(2))
            alone = [
                hourly_overrun(m, Sides([d, *[0] * 23], [r, *[0] * 23]))
                for d, r in zip(delivered, received)
            ]
            self.assertEqual(sum(alone), hourly_overrun(m, Sides(delivered, received)))

    def test_level_flow_within_the_limits_of_both_days(self):
        """47 MJ for each GJ of the hour's own day fills every period and overruns none."""
        for _ in range(100):
            p, m = some_rows(self.chance, GIGAJOULES, 2)
            hours = [47 * p] * 11 + [47 * m] * 24
            self.assertEqual(0, twelve_hourly_overrun(p, m, hours))
            self.assertEqual(1, twelve_hourly_overrun(p, m, [hours[0] + 1, *hours[1:]]))

    def test_excused_gas_never_raises_an_overrun(self):
        for _ in range(100):
            p, m = self.chance.randint(0, 100), self.chance.randint(0, 100)
            hours = [self.chance.randint(0, 9_000) for _ in range(35)]
            excused = [self.chance.randint(0, hour) for hour in hours]
            left = [hour - off for hour, off in zip(hours, excused)]
            over = twelve_hourly_overrun(p, m, hours, excused)
            self.assertEqual(twelve_hourly_overrun(p, m, left), over)
            self.assertLessEqual(over, twelve_hourly_overrun(p, m, hours))


class FileLaws(Laws):
    def test_read_after_write(self):
        for _ in range(200):
            day = some_day(self.chance)
            file = write_day(day)
            self.assertEqual(day, read_day(file))
            self.assertEqual(file, write_day(read_day(file)))

    def test_write_after_read_of_any_file(self):
        """A changed file is either refused at one of its fields or written again as it was."""
        refused = accepted = 0
        for _ in range(1_500):
            file = bytearray(write_day(some_day(self.chance)))
            at = self.chance.randrange(len(file))
            file[at] = self.chance.choice((0, 1, file[at] ^ 1, self.chance.randrange(256)))
            try:
                day = read_day(bytes(file))
            except Refusal as refusal:
                refused += 1
                self.assertIn(refusal.number, (1, 2, 3, 4, 5))
                self.everything_before_is_sound(bytes(file[: refusal.place]))
                continue
            accepted += 1
            self.assertEqual(bytes(file), write_day(day))
        self.assertGreater(min(refused, accepted), 200)

    def everything_before_is_sound(self, file):
        if file:
            self.assertEqual(file, write_day(read_day(file)))
