"""Each rule's refusals, in 01's order, and its bounds at their edge and one beyond."""

from cases import put
from dayshares import share_day
from overruns import (
    NOTHING_EXCUSED,
    BackhaulMetered,
    Excused,
    Schedules,
    Sides,
    daily_overruns,
    day_overruns,
    hourly_overrun,
    twelve_hourly_overrun,
)
from pointshares import hour_at_point
from rounds import one_round
from support import RuleTest
from tariff import escalate, overrun_charge, request_charge, variation_charge
from usegas import general_gas, heater_gas, imbalance_fuel

MILLION = 1_000_000
HOUR = 100_000_000
BACKHAUL = 2_400_000_000
BILLION = 1_000_000_000


class OneRound(RuleTest):
    def test_unequal_lists(self):
        self.refused(9, 0, one_round, 1, [1], [])
        self.refused(9, 0, one_round, 2 * MILLION + 1, [], [1])

    def test_bounds(self):
        one_round(2 * MILLION, [MILLION] * 64, [MILLION] * 64)
        self.refused(3, 0, one_round, 2 * MILLION + 1, [], [])
        self.refused(3, 0, one_round, 1, [0] * 65, [0] * 65)
        self.refused(3, 1, one_round, 1, [0, MILLION + 1], [0, 0])
        self.refused(3, 1, one_round, 1, [0, 0], [0, MILLION + 1])

    def test_order(self):
        self.refused(3, 0, one_round, 2 * MILLION + 1, [0, MILLION + 1], [0, 0])
        self.refused(3, 1, one_round, 1, [0, MILLION + 1], [MILLION + 1, 0])
        self.refused(3, 0, one_round, 1, [0], [MILLION + 1], room=0)

    def test_room(self):
        self.assertEqual([1, 1], one_round(2, [1, 1], [1, 1], room=2).shares)
        self.refused(7, 0, one_round, 2, [1, 1], [1, 1], room=1)


class DayShares(RuleTest):
    LISTS = [[1, 1], [1, 1], [1, 1], [1, 1], [1, 1]]

    def test_unequal_lists(self):
        for index in range(5):
            self.refused(9, 0, share_day, 1, 1, *put(self.LISTS, index, [1]))

    def test_bounds(self):
        share_day(MILLION, MILLION, *[[MILLION] * 64] * 5)
        self.refused(3, 0, share_day, MILLION + 1, 1, *self.LISTS)
        self.refused(3, 0, share_day, 1, MILLION + 1, *self.LISTS)
        self.refused(3, 0, share_day, 1, 1, *[[0] * 65] * 5)
        for index in range(5):
            self.refused(3, 1, share_day, 1, 1, *put(self.LISTS, index, [1, MILLION + 1]))

    def test_earlier_list_before_lower_row(self):
        lists = put(put(self.LISTS, 1, [1, MILLION + 1]), 2, [MILLION + 1, 1])
        self.refused(3, 1, share_day, 1, 1, *lists)

    def test_schedule_without_mdq(self):
        self.refused(4, 1, share_day, 1, 1, *put(self.LISTS, 0, [1, 0]))
        self.refused(4, 0, share_day, 1, 1, *put(self.LISTS, 1, [0, 1]))
        share_day(1, 1, *put(put(self.LISTS, 0, [1, 0]), 2, [1, 0]))
        share_day(1, 1, *put(put(self.LISTS, 1, [0, 1]), 3, [0, 1]))

    def test_firm_rows_before_auction_rows(self):
        lists = put(put(self.LISTS, 0, [1, 0]), 1, [0, 1])
        self.refused(4, 1, share_day, 1, 1, *lists)

    def test_order(self):
        no_mdq = put(self.LISTS, 0, [0, 1])
        self.refused(3, 1, share_day, 1, 1, *put(no_mdq, 4, [1, MILLION + 1]))
        self.refused(4, 0, share_day, 1, 1, *no_mdq, rooms=(0, 0, 0))

    def test_room(self):
        share_day(1, 1, *self.LISTS, rooms=(2, 2, 2))
        for index in range(3):
            self.refused(7, 0, share_day, 1, 1, *self.LISTS, rooms=put([2, 2, 2], index, 1))


class HourAtPoint(RuleTest):
    def test_unequal_lists(self):
        self.refused(9, 0, hour_at_point, HOUR + 1, [1], [])

    def test_bounds(self):
        hour_at_point(HOUR, [HOUR] * 64, [MILLION] * 64)
        self.refused(3, 0, hour_at_point, HOUR + 1, [1, 1], [1, 1])
        self.refused(3, 0, hour_at_point, 1, [0] * 65, [0] * 65)
        self.refused(3, 1, hour_at_point, 1, [1, HOUR + 1], [1, 1])
        self.refused(3, 1, hour_at_point, 1, [1, 1], [1, MILLION + 1])
        self.refused(3, 1, hour_at_point, 1, [1, HOUR + 1], [MILLION + 1, 1])

    def test_spare_without_mdq(self):
        self.refused(6, 0, hour_at_point, 3, [1, 1], [0, 0])
        self.assertEqual([1, 1], hour_at_point(2, [1, 1], [0, 0]))
        self.assertEqual([0, 0], hour_at_point(1, [1, 1], [0, 0]))
        self.assertEqual([3], hour_at_point(3, [1], [0]))

    def test_order(self):
        self.refused(3, 1, hour_at_point, HOUR, [1, 1], [0, MILLION + 1], room=0)
        self.refused(6, 0, hour_at_point, 3, [1, 1], [0, 0], room=0)

    def test_room(self):
        hour_at_point(3, [1, 1], [1, 1], room=2)
        self.refused(7, 0, hour_at_point, 3, [1, 1], [1, 1], room=1)
        self.refused(7, 0, hour_at_point, 3, [1], [0], room=0)


class Overruns(RuleTest):
    DAY = [0] * 24
    SIDES = Sides(DAY, DAY)
    NONE = Schedules(0, 0, 0, 0)
    NO_BACKHAUL = BackhaulMetered(0, 0)

    def sides(self, delivered_hour=None, received_hour=None):
        """Both rows, an hour beyond its bound put into either."""
        return Sides(
            self.DAY if delivered_hour is None else put(self.DAY, delivered_hour, HOUR + 1),
            self.DAY if received_hour is None else put(self.DAY, received_hour, HOUR + 1),
        )

    def test_hourly(self):
        greatest = hourly_overrun(0, Sides([HOUR] * 24, [HOUR] * 24))
        self.assertEqual(2_400_000_000, greatest)
        self.assertEqual(0, hourly_overrun(MILLION, self.SIDES))
        self.refused(9, 0, hourly_overrun, MILLION + 1, Sides([0] * 23, self.DAY))
        self.refused(9, 0, hourly_overrun, MILLION + 1, Sides(self.DAY, [0] * 25))
        self.refused(3, 0, hourly_overrun, MILLION + 1, self.sides(5, 3))
        self.refused(3, 5, hourly_overrun, 0, self.sides(5, 3))
        self.refused(3, 23, hourly_overrun, 0, self.sides(received_hour=23))

    def test_twelve_hourly(self):
        self.assertEqual(28_800_000_000, twelve_hourly_overrun(0, 0, [HOUR] * 35))
        self.assertEqual(0, twelve_hourly_overrun(MILLION, MILLION, [0] * 35))
        self.refused(9, 0, twelve_hourly_overrun, MILLION + 1, 0, [0] * 34)
        self.refused(9, 0, twelve_hourly_overrun, 0, 0, [0] * 36)
        self.refused(3, 0, twelve_hourly_overrun, MILLION + 1, 0, [HOUR + 1] * 35)
        self.refused(3, 0, twelve_hourly_overrun, 0, MILLION + 1, put([0] * 35, 9, HOUR + 1))
        self.refused(3, 34, twelve_hourly_overrun, 0, 0, put([0] * 35, 34, HOUR + 1))

    def excused(self, yesterday=None, delivered=None, received=None):
        """49 excused in an hour of each list, where 48 were metered."""
        lists = zip((11, 24, 24), (yesterday, delivered, received))
        return Excused(*([49 if hour == place else 0 for hour in range(count)] for count, place in lists))

    def test_excused(self):
        day = Sides([48] * 24, [48] * 24)
        whole = Excused([48] * 11, [48] * 24, [48] * 24)
        self.assertEqual(0, hourly_overrun(0, day, whole))
        self.refused(9, 0, hourly_overrun, MILLION + 1, day, Sides([0] * 24, [0] * 23))
        self.refused(9, 0, hourly_overrun, MILLION + 1, day, Sides([0] * 25, [0] * 24))
        self.refused(3, 0, hourly_overrun, MILLION + 1, day, self.excused(None, 5, 3))
        self.refused(3, 23, hourly_overrun, 0, self.sides(received_hour=23), self.excused(None, 5, 3))
        self.refused(3, 5, hourly_overrun, 0, day, self.excused(None, 5, 3))
        self.refused(3, 3, hourly_overrun, 0, day, self.excused(None, None, 3))

        self.assertEqual(0, twelve_hourly_overrun(0, 0, [48] * 35, [48] * 35))
        self.refused(9, 0, twelve_hourly_overrun, MILLION + 1, 0, [48] * 35, [0] * 34)
        self.refused(9, 0, twelve_hourly_overrun, 0, MILLION + 1, [48] * 35, [0] * 36)
        self.refused(3, 0, twelve_hourly_overrun, 0, MILLION + 1, [48] * 35, put([0] * 35, 34, 49))
        self.refused(3, 9, twelve_hourly_overrun, 0, 0, put([48] * 35, 9, HOUR + 1), [49] * 35)
        self.refused(3, 34, twelve_hourly_overrun, 0, 0, [48] * 35, put([0] * 35, 34, 49))

    def test_daily(self):
        full = Sides([HOUR] * 24, [HOUR] * 24)
        greatest = daily_overruns(full, BackhaulMetered(BACKHAUL, BACKHAUL), self.NONE)
        self.assertEqual((4_800_000_000, 4_800_000_000), greatest)
        scheduled = Schedules(*[MILLION] * 4)
        self.assertEqual((0, 0), daily_overruns(self.SIDES, self.NO_BACKHAUL, scheduled))
        self.refused(9, 0, daily_overruns, Sides([0] * 23, self.DAY), self.NO_BACKHAUL, self.NONE)
        self.refused(9, 0, daily_overruns, Sides(self.DAY, [0] * 23), self.NO_BACKHAUL, self.NONE)
        for index in range(2):
            beyond = BackhaulMetered(*put([0, 0], index, BACKHAUL + 1))
            self.refused(3, 0, daily_overruns, self.sides(5, 3), beyond, self.NONE)
        for index in range(4):
            beyond = Schedules(*put([0] * 4, index, MILLION + 1))
            self.refused(3, 0, daily_overruns, self.sides(5, 3), self.NO_BACKHAUL, beyond)
        self.refused(3, 5, daily_overruns, self.sides(5, 3), self.NO_BACKHAUL, self.NONE)
        self.refused(3, 3, daily_overruns, self.sides(None, 3), self.NO_BACKHAUL, self.NONE)

    def day(
        self,
        p=0,
        m=0,
        yesterday=(0,) * 11,
        hours=SIDES,
        schedules=NONE,
        metered=NO_BACKHAUL,
        excused=NOTHING_EXCUSED,
    ):
        return day_overruns(p, m, list(yesterday), hours, schedules, metered, excused)

    def test_day(self):
        bad_yesterday = put([0] * 11, 7, HOUR + 1)
        faulty = {"yesterday": bad_yesterday, "hours": self.sides(5, 3)}
        self.refused(9, 0, self.day, p=MILLION + 1, yesterday=[0] * 10)
        self.refused(9, 0, self.day, hours=Sides([0] * 25, self.DAY))
        self.refused(9, 0, self.day, hours=Sides(self.DAY, [0] * 25))
        self.refused(3, 0, self.day, p=MILLION + 1, **faulty)
        self.refused(3, 0, self.day, m=MILLION + 1, **faulty)
        self.refused(3, 0, self.day, schedules=Schedules(0, 0, 0, MILLION + 1), **faulty)
        self.refused(3, 0, self.day, metered=BackhaulMetered(0, BACKHAUL + 1), **faulty)
        self.refused(3, 7, self.day, **faulty)
        self.refused(3, 5, self.day, hours=self.sides(5, 3))
        self.refused(3, 3, self.day, hours=self.sides(received_hour=3))

    def test_day_excused(self):
        day = {"yesterday": [48] * 11, "hours": Sides([48] * 24, [48] * 24)}
        whole = Excused([48] * 11, [48] * 24, [48] * 24)
        self.assertEqual((0, 0, 1_152, 1_152, 1_152), self.day(**day, excused=whole))
        for index in range(3):
            short = Excused(*(hours[index == place :] for place, hours in enumerate(whole)))
            self.refused(9, 0, self.day, p=MILLION + 1, **day, excused=short)
        self.refused(3, 0, self.day, m=MILLION + 1, **day, excused=self.excused(7, 5, 3))
        beyond = {**day, "hours": Sides([48] * 24, put([48] * 24, 20, HOUR + 1))}
        self.refused(3, 20, self.day, **beyond, excused=self.excused(7, 5, 3))
        self.refused(3, 7, self.day, **day, excused=self.excused(7, 5, 3))
        self.refused(3, 5, self.day, **day, excused=self.excused(None, 5, 3))
        self.refused(3, 3, self.day, **day, excused=self.excused(None, None, 3))


class UseGas(RuleTest):
    def test_general_bounds(self):
        general_gas(BILLION, BILLION, 255, [MILLION] * 64)
        self.refused(3, 0, general_gas, BILLION + 1, 0, 255, [1])
        self.refused(3, 0, general_gas, BILLION, BILLION + 1, 255, [1])
        self.refused(3, 0, general_gas, 1, 0, 255, [0] * 65)
        self.refused(3, 1, general_gas, 1, 0, 255, [0, MILLION + 1])

    def test_foundation_place(self):
        self.assertEqual([1, 0], general_gas(1, 0, 1, [1, 5]))
        self.refused(3, 0, general_gas, 1, 0, 2, [1, 5])
        self.refused(3, 0, general_gas, 0, 0, 0, [])
        self.refused(3, 0, general_gas, 0, 0, 254, [MILLION + 1] * 64)
        self.refused(3, 0, general_gas, 0, 0, 256, [1])

    def test_foundation_gas_above_all(self):
        self.refused(11, 0, general_gas, 1, 2, 255, [1])
        self.refused(11, 0, general_gas, 1, 2, 255, [0], room=0)
        self.refused(3, 1, general_gas, 1, 2, 255, [1, MILLION + 1])

    def test_net_without_schedules(self):
        self.refused(10, 0, general_gas, 2, 1, 255, [0, 0])
        self.refused(10, 0, general_gas, 2, 1, 255, [])
        self.refused(10, 0, general_gas, 2, 1, 0, [5, 0], room=0)
        self.assertEqual([0], general_gas(1, 1, 0, [5]))

    def test_room(self):
        general_gas(1, 0, 255, [1, 1], room=2)
        self.refused(7, 0, general_gas, 1, 0, 255, [1, 1], room=1)
        self.refused(7, 0, general_gas, 1, 1, 255, [1, 1], room=1)

    def test_heater(self):
        heater_gas(BILLION, [MILLION] * 64)
        self.refused(3, 0, heater_gas, BILLION + 1, [1])
        self.refused(3, 0, heater_gas, 1, [0] * 65)
        self.refused(3, 1, heater_gas, 1, [0, MILLION + 1], room=0)
        self.refused(10, 0, heater_gas, 1, [0, 0], room=0)
        self.refused(7, 0, heater_gas, 1, [1, 1], room=1)
        self.assertEqual([1], heater_gas(1, [1], room=1))

    def test_imbalance(self):
        self.assertEqual(10_000_000, imbalance_fuel(BILLION, -BILLION, 0))
        self.assertEqual(9_200_000, imbalance_fuel(-BILLION, BILLION, MILLION))
        self.refused(3, 0, imbalance_fuel, BILLION + 1, 0, 0)
        self.refused(3, 0, imbalance_fuel, -BILLION - 1, 0, 0)
        self.refused(3, 0, imbalance_fuel, 0, BILLION + 1, 0)
        self.refused(3, 0, imbalance_fuel, 0, -BILLION - 1, 0)
        self.refused(3, 0, imbalance_fuel, 0, 0, MILLION + 1)


class Tariff(RuleTest):
    RATE = 100_000_000

    def test_overrun(self):
        self.assertEqual(2_880_000_000_000, overrun_charge(self.RATE, 28_800_000_000))
        self.refused(3, 0, overrun_charge, self.RATE + 1, 0)
        self.refused(3, 0, overrun_charge, 0, 28_800_000_001)

    def test_variation(self):
        self.assertEqual(100_000_000_000, variation_charge(self.RATE, 0, MILLION, MILLION, 0))
        self.refused(3, 0, variation_charge, self.RATE + 1, 0, 0, 0, 0)
        for index in range(4):
            self.refused(3, 0, variation_charge, 0, *put([0] * 4, index, MILLION + 1))

    def test_request(self):
        self.assertEqual(100_000_000, request_charge(self.RATE, 1_000))
        self.refused(3, 0, request_charge, self.RATE + 1, 0)
        self.refused(3, 0, request_charge, 0, 1_001)

    def test_escalation(self):
        self.assertEqual(self.RATE, escalate(self.RATE, 100_000, 100_000))
        self.refused(3, 0, escalate, self.RATE + 1, 1, 1)
        self.refused(3, 0, escalate, 1, 100_001, 0)
        self.refused(3, 0, escalate, 1, 1, 100_001)
        self.refused(10, 0, escalate, self.RATE, 100_000, 0)
        self.refused(8, 0, escalate, self.RATE, 2, 1)

    def test_escalated_rate_at_its_bound(self):
        self.assertEqual(self.RATE, escalate(50_000_000, 2, 1))
        self.refused(8, 0, escalate, 50_000_001, 2, 1)
        self.assertEqual(self.RATE, escalate(80_000_000, 5, 4))
        # 100,000,000.5 is rounded up first.
        self.refused(8, 0, escalate, 66_666_667, 3, 2)
