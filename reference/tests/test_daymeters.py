"""The meters of a day in memory."""

from daymeters import meter_at, meter_delivered, meter_figures, meter_hours, meter_yesterday
from days import make_day
from support import RuleTest

# Shipper 9's numbers are 1, 2 and so on.
DAY = make_day(
    shippers=[(9, 0, 0, 0, 0, 0)],
    meters=[(7, *[0] * 67), (9, *range(1, 68))],
)


def changed(place, number):
    """A day with another number in shipper 9's row."""
    at = 6 + 68 + place
    return DAY._replace(numbers=[*DAY.numbers[:at], number, *DAY.numbers[at + 1 :]])


class Meters(RuleTest):
    def test_figures(self):
        found = meter_figures(DAY.counts, DAY.numbers, 1)
        self.assertEqual((9, 1, 2), found[:3])
        self.assertEqual(((62, 64, 66), (63, 65, 67)), (found.receipt, found.delivery))

    def test_hours(self):
        hours = meter_hours(DAY.counts, DAY.numbers, 1)
        self.assertEqual(list(range(3, 14)), meter_yesterday(DAY.counts, DAY.numbers, 1))
        self.assertEqual(list(range(14, 38)), hours.delivered)
        self.assertEqual(list(range(38, 62)), hours.received)
        self.assertEqual(list(range(3, 38)), meter_delivered(DAY.counts, DAY.numbers, 1, 35))

    def meter_refused(self, number, place, day, row):
        """The check and the figures refuse, the hours are not handed out, and those shown are zero."""
        self.refused(number, place, meter_at, day.counts, day.numbers, row)
        self.refused(number, place, meter_figures, day.counts, day.numbers, row)
        self.refused(number, place, meter_delivered, day.counts, day.numbers, row, 0)
        self.assertEqual([0] * 11, [*meter_yesterday(day.counts, day.numbers, row)])
        delivered, received = meter_hours(day.counts, day.numbers, row)
        self.assertEqual(([0] * 24, [0] * 24), ([*delivered], [*received]))

    def test_refusals(self):
        self.meter_refused(9, 0, DAY._replace(numbers=DAY.numbers[:-1]), 1)
        too_many = DAY.counts._replace(meters=65)
        self.meter_refused(3, 0, DAY._replace(counts=too_many, numbers=[0] * (6 + 65 * 68)), 1)
        self.meter_refused(3, 0, DAY, 2)

    def test_bounds(self):
        places = {1: 1_000_000, 3: 100_000_000, 61: 100_000_000, 65: 1_000_000, 67: 2_400_000_000}
        for place, greatest in places.items():
            day = changed(place, greatest)
            meter_at(day.counts, day.numbers, 1)
            self.meter_refused(3, 1, changed(place, greatest + 1), 1)
        self.meter_refused(3, 1, changed(0, 0), 1)
        self.meter_refused(3, 1, changed(0, 65_536), 1)

    def test_room(self):
        self.refused(7, 0, meter_delivered, DAY.counts, DAY.numbers, 1, 34)
        self.refused(3, 0, meter_delivered, DAY.counts, DAY.numbers, 2, 34)
