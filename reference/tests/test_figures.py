"""01's "Figures to check against"."""

import unittest

from cases import put
from cormcushion import listing
from dayfile import write_day
from days import make_day
from dayshares import share_day
from overruns import (
    BackhaulMetered,
    Excused,
    Schedules,
    Sides,
    day_overruns,
    hourly_overrun,
    twelve_hourly_limit,
    twelve_hourly_overrun,
)
from pointshares import hour_at_point
from rounds import one_round
from tariff import (
    OVERRUN_RATE,
    REQUEST_RATE,
    VARIATION_RATE,
    escalate,
    overrun_charge,
    request_charge,
    variation_charge,
)
from usegas import general_gas, heater_gas, imbalance_fuel


class Shares(unittest.TestCase):
    def test_round_one_of_the_first_figure(self):
        self.assertEqual((803_333, [240, 60]), one_round(300, [300, 150], [400, 60]))

    def test_first_figure(self):
        day = share_day(300, 100, [400, 200], [0, 0], [400, 60], [0, 0], [0, 0])
        self.assertEqual([340, 60], day.firm)
        self.assertEqual((400, 0, 0), day.totals)
        self.assertEqual(0, day.left)
        # Round two gives 100 of 160 below 1,010,000; round three has nothing left, below 2,500.
        self.assertEqual([803_333, 1_009_999, 2_499, 0, 0], day.levels)

    def test_three_equal_rows(self):
        day = share_day(10, 0, [4] * 3, [0] * 3, [4] * 3, [0] * 3, [0] * 3)
        self.assertEqual([3, 3, 3], day.firm)
        self.assertEqual(1, day.left)
        self.assertEqual([1_333_333, 999_999, 249_999, 0, 0], day.levels)

    def test_auction(self):
        day = share_day(300, 100, [400, 0], [100, 300], [100, 0], [200, 300], [0, 0])
        self.assertEqual([100, 0], day.firm)
        self.assertEqual([75, 225], day.auction)
        self.assertEqual((100, 300, 0), day.totals)
        self.assertEqual(753_333, day.levels[3])
        self.assertEqual(0, day.levels[4])

    def test_last_gigajoule_of_a_short_firm_class_stays(self):
        day = share_day(10, 0, [4] * 3, [4] * 3, [4] * 3, [4] * 3, [4] * 3)
        self.assertEqual(([0] * 3, [0] * 3, 1), (day.auction, day.lower_tier, day.left))

    def test_lower_tier_gets_what_a_full_auction_leaves(self):
        day = share_day(60, 40, [40, 0], [10, 20], [40, 0], [10, 20], [30, 60])
        self.assertEqual([40, 0], day.firm)
        self.assertEqual([10, 20], day.auction)
        self.assertEqual([10, 20], day.lower_tier)
        self.assertEqual(0, day.left)
        # 30 and 60 give 10 and 20 from 333,334; 21 for the second from 350,000.
        self.assertEqual(349_999, day.levels[4])

    def test_nothing_scheduled_reaches_the_greatest_level(self):
        day = share_day(5, 6, [], [], [], [], [])
        self.assertEqual([1_000_000_000_000] * 5, day.levels)
        self.assertEqual(11, day.left)

    def test_first_figure_is_printed(self):
        file = write_day(
            make_day((1, 300, 100), [(7, 400, 0, 400, 0, 0), (9, 200, 0, 60, 0, 0)])
        )
        self.assertEqual(
            "DAY 1 FIRM 400 LEFT 0\n7 340 0 0\n9 60 0 0\n", listing("shares", [], file)
        )


class Points(unittest.TestCase):
    def test_above_the_entitlements(self):
        self.assertEqual([6_250, 2_750], hour_at_point(9_000, [4_000, 2_000], [300, 100]))

    def test_below_the_entitlements(self):
        self.assertEqual([3_333, 1_666], hour_at_point(5_000, [4_000, 2_000], [300, 100]))

    def test_at_the_entitlements(self):
        self.assertEqual([4_000, 2_000], hour_at_point(6_000, [4_000, 2_000], [0, 0]))

    def test_one_shipper_and_none(self):
        self.assertEqual([9_000], hour_at_point(9_000, [4_000], [0]))
        self.assertEqual([], hour_at_point(9_000, [], []))


class Overruns(unittest.TestCase):
    def hourly(self, m, delivered, received):
        return hourly_overrun(m, Sides([delivered, *[0] * 23], [received, *[0] * 23]))

    def test_hour_at_its_limit_and_one_above(self):
        self.assertEqual(0, self.hourly(1_000, 50_000, 44_000))
        self.assertEqual(1, self.hourly(1_000, 50_001, 0))
        self.assertEqual(1, self.hourly(1_000, 0, 44_001))

    def test_greater_excess_in_each_hour(self):
        hours = Sides([50_005, 50_001, *[0] * 22], [44_002, 44_003, *[0] * 22])
        self.assertEqual(5 + 3, hourly_overrun(1_000, hours))

    def test_limit_of_a_period_begun_yesterday(self):
        self.assertEqual(799_000, twelve_hourly_limit(1_000, 2_000, 5))
        self.assertEqual(564 * 2_000, twelve_hourly_limit(1_000, 2_000, 12))
        self.assertEqual(47 * (1_000 + 22_000), twelve_hourly_limit(1_000, 2_000, 11))

    def test_periods_are_twelve_hours_each(self):
        """With no MDQ each hour counts once for every period that holds it."""
        counts = [
            twelve_hourly_overrun(0, 0, [int(hour == metered) for hour in range(35)])
            for metered in range(35)
        ]
        self.assertEqual([*range(1, 12), *[12] * 13, *range(11, 0, -1)], counts)

    def test_periods_over_their_limits(self):
        self.assertEqual(4_830_000, twelve_hourly_overrun(1_000, 2_000, [100_000] * 35))
        self.assertEqual(5_184, twelve_hourly_overrun(0, 0, [*range(1, 36)]))

    def steady(self, *excused):
        """The day of 288,000 MJ, with what is excused of its hours."""
        return day_overruns(
            1_000,
            1_000,
            [48_000] * 11,
            Sides([48_000] * 24, [0] * 24),
            Schedules(0, 1_152, 0, 0),
            BackhaulMetered(0, 0),
            *excused,
        )

    def test_a_day_over_its_twelve_hours(self):
        overruns = self.steady()
        self.assertEqual((0, 288_000, 0, 0, 288_000), overruns)
        self.assertEqual(103_392, overrun_charge(OVERRUN_RATE, overruns.greatest))

    def test_excused_gas_is_not_compared(self):
        self.assertEqual((0, 0, 0, 0, 0), self.steady(Excused([1_000] * 11, [1_000] * 24, [0] * 24)))
        self.assertEqual((0, 276_000, 0, 0, 276_000), self.steady(Excused([0] * 11, [1_000, *[0] * 23], [0] * 24)))
        self.assertEqual((0, 144_000, 0, 0, 144_000), self.steady(Excused([0] * 11, [48_000, *[0] * 23], [0] * 24)))
        self.assertEqual((0, 287_000, 0, 0, 287_000), self.steady(Excused([1_000, *[0] * 10], [0] * 24, [0] * 24)))
        excused = put([0] * 35, 11, 1_000)
        self.assertEqual(276_000, twelve_hourly_overrun(1_000, 1_000, [48_000] * 35, excused))

    def test_daily_counts_excused_gas(self):
        hours, excused = Sides([50_001] * 24, [44_002] * 24), Excused([0] * 11, [1] * 24, [1] * 24)
        overruns = day_overruns(
            1_000, 1_000, [0] * 11, hours, Schedules(1_200, 1_200, 0, 0), BackhaulMetered(0, 0), excused
        )
        self.assertEqual((24, 468_000, 0, 24, 468_000), overruns)
        self.assertEqual(24, hourly_overrun(1_000, hours, excused))
        self.assertEqual(48, hourly_overrun(1_000, hours))

    def test_daily_counts_backhaul_and_the_others_leave_it_out(self):
        overruns = day_overruns(
            10,
            10,
            [0] * 11,
            Sides([100] * 24, [200] * 24),
            Schedules(1, 2, 3, 4),
            BackhaulMetered(9_000, 90_000),
        )
        self.assertEqual((0, 0, 9_800, 86_400, 86_400), overruns)


class UseGas(unittest.TestCase):
    def test_imbalance_fuel(self):
        self.assertEqual(0, imbalance_fuel(80_000, 0, 1_000))
        self.assertEqual(0, imbalance_fuel(80_099, 0, 1_000))
        self.assertEqual(1, imbalance_fuel(80_100, 0, 1_000))
        self.assertEqual(1, imbalance_fuel(-5, 80_100, 1_000))
        self.assertEqual(0, imbalance_fuel(-1, -1_000, 0))

    def test_general_gas(self):
        self.assertEqual([33, 66], general_gas(110, 10, 255, [1, 2]))
        self.assertEqual([0, 33, 66], general_gas(110, 10, 0, [7, 1, 2]))
        self.assertEqual([0, 0], general_gas(10, 10, 255, [1, 2]))
        self.assertEqual([0, 0], general_gas(10, 10, 255, [0, 0]))

    def test_heater_gas(self):
        self.assertEqual([33, 66], heater_gas(100, [1, 2]))
        self.assertEqual([], heater_gas(0, []))


class Charges(unittest.TestCase):
    def test_schedule_2(self):
        self.assertEqual(
            (359_000, 4_075, 36_271_000), (OVERRUN_RATE, VARIATION_RATE, REQUEST_RATE)
        )

    def test_variation(self):
        self.assertEqual(408, variation_charge(VARIATION_RATE, 0, 100, 0, 0))
        self.assertEqual(408, variation_charge(VARIATION_RATE, 500, 550, 200, 300))
        self.assertEqual(0, variation_charge(VARIATION_RATE, 100, 0, 100, 99))

    def test_escalation(self):
        self.assertEqual(365_282, escalate(OVERRUN_RATE, 1_163, 1_143))

    def test_requests(self):
        self.assertEqual(36_271 * 3, request_charge(REQUEST_RATE, 3))
        self.assertEqual(2, request_charge(500, 2))

    def test_half_a_cent_goes_up(self):
        self.assertEqual((0, 1), (overrun_charge(499_999, 1), overrun_charge(500_000, 1)))
        self.assertEqual((0, 1), (variation_charge(499, 0, 1, 0, 0), variation_charge(500, 0, 1, 0, 0)))
        self.assertEqual((0, 1), (request_charge(499, 1), request_charge(500, 1)))
        self.assertEqual((1, 1), (escalate(1, 1, 2), escalate(1, 5, 4)))
        self.assertEqual((0, 2), (escalate(1, 1, 3), escalate(1, 3, 2)))
