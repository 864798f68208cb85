"""Rows and columns of a day in memory, and the shares from its numbers."""

from dayfile import Counts, write_day
from dayformat import ENTRY, EXCUSED, METER, POINT, SHIPPER
from days import excused_gas, full_day, make_day, meter
from dayshares import share_day
from dayvalues import number_at, point_at, row_at, shipper_at, shipper_column
from numbershares import share_numbers
from support import RuleTest

MILLION = 1_000_000

DAY = make_day(
    shippers=[(7, 1, 2, 3, 4, 5), (9, 6, 7, 8, 9, 10)],
    points=[(0, 3, 11), (1, 3, 12), (1, 4, 13)],
    entries=[(0, 3, 7, 14)],
    meters=[meter(7, 15, 16)],
    excused=[excused_gas(7, 17, 18)],
)


def changed(at, number, day=DAY):
    """A day with another number at a place of its list."""
    return day._replace(numbers=[*day.numbers[:at], number, *day.numbers[at + 1 :]])


def with_rows(tag, rows):
    """A day of so many rows of zeros of one table."""
    widths = {SHIPPER: 6, POINT: 3, ENTRY: 4, METER: 68, EXCUSED: 60}
    counts = [rows if other == tag else 0 for other in widths]
    return make_day()._replace(counts=Counts(*counts), numbers=[0] * rows * widths[tag])


MOST = ((SHIPPER, 64), (POINT, 32), (ENTRY, 512), (METER, 64), (EXCUSED, 64))


class Numbers(RuleTest):
    def number(self, expected, *where, day=DAY):
        self.assertEqual(expected, number_at(day.counts, day.numbers, *where))

    def test_tables_stand_one_after_another(self):
        self.number(7, SHIPPER, 0, 0)
        self.number(10, SHIPPER, 1, 5)
        self.number(11, POINT, 0, 2)
        self.number(4, POINT, 2, 1)
        self.number(14, ENTRY, 0, 3)
        self.number(16, METER, 0, 2)
        self.number(7, EXCUSED, 0, 0)
        self.number(18, EXCUSED, 0, 59)

    def test_past_a_row_stands_the_next(self):
        self.number(9, SHIPPER, 0, 6)
        self.number(3, SHIPPER, 2, 1)
        self.number(7, POINT, 3, 2)
        self.number(17, METER, 1, 1)

    def test_past_the_list(self):
        self.number(0, EXCUSED, 1, 0)
        self.number(0, SHIPPER, 2**32 - 1, 0)
        self.number(0, SHIPPER, 0, 2**32 - 1)
        self.number(0, POINT, 0, 0, day=DAY._replace(counts=Counts(*[2**32 - 1] * 5)))

    def test_counts_are_not_held_to_the_list(self):
        self.number(9, POINT, 0, 0, day=DAY._replace(counts=Counts(1, 0, 0, 0, 0)))


class Rows(RuleTest):
    def test_rows(self):
        self.assertEqual(9, shipper_at(DAY.counts, DAY.numbers, 1))
        self.assertEqual((1, 3, 12), point_at(DAY.counts, DAY.numbers, 1))
        self.assertEqual([0, 3, 7, 14], row_at(DAY.counts, DAY.numbers, ENTRY, 0))

    def row_refused(self, number, place, day, tag, row):
        self.refused(number, place, row_at, day.counts, day.numbers, tag, row)

    def test_unequal_lists(self):
        for numbers in ([], DAY.numbers[:-1], [*DAY.numbers, 0]):
            self.row_refused(9, 0, DAY._replace(numbers=numbers), SHIPPER, 0)
        self.row_refused(9, 0, DAY._replace(counts=Counts(2**32 - 1, 3, 1, 1, 1)), SHIPPER, 0)

    def test_counts(self):
        """Each count at its bound, where the row is refused, and one beyond it."""
        for tag, most in MOST:
            self.row_refused(3, 1, with_rows(tag, most), tag, 1)
            self.row_refused(3, 0, with_rows(tag, most + 1), tag, 1)

    def test_another_tables_count(self):
        for tag, most in MOST[1:]:
            for more, place in ((0, 1), (1, 0)):
                _, counts, numbers = with_rows(tag, most + more)
                day = DAY._replace(counts=counts._replace(shippers=2), numbers=[0] * 12 + numbers)
                self.row_refused(3, place, day, SHIPPER, 1)

    def test_rows_past_the_last(self):
        for tag, rows in ((SHIPPER, 2), (POINT, 3), (ENTRY, 1), (METER, 1), (EXCUSED, 1)):
            self.row_refused(3, 0, DAY, tag, rows)
            self.row_refused(3, 0, DAY, tag, 2**32 - 1)

    def test_bounds(self):
        bounds = {6: (1, 65_535), 7: (0, MILLION), 11: (0, MILLION)}
        for at, (least, greatest) in bounds.items():
            for number in (least, greatest):
                changed_day = changed(at, number)
                row_at(changed_day.counts, changed_day.numbers, SHIPPER, 1)
            self.row_refused(3, 1, changed(at, greatest + 1), SHIPPER, 1)
        self.row_refused(3, 1, changed(6, 0), SHIPPER, 1)
        self.row_refused(3, 1, changed(6, 2**32 + 9), SHIPPER, 1)
        self.row_refused(3, 1, changed(15, 2), POINT, 1)
        self.row_refused(3, 1, changed(16, 0), POINT, 1)
        self.row_refused(3, 1, changed(17, 100_000_001), POINT, 1)
        self.row_refused(3, 0, changed(21, 2), ENTRY, 0)
        self.row_refused(3, 0, changed(24, 100_000_001), ENTRY, 0)
        self.row_refused(3, 0, changed(93, 0), EXCUSED, 0)
        self.row_refused(3, 0, changed(152, 2**32), EXCUSED, 0)

    def test_another_rows_fault(self):
        day = changed(6, 0)
        self.assertEqual(7, shipper_at(day.counts, day.numbers, 0))

    def test_full_day(self):
        full = full_day()
        for tag, most in MOST:
            row_at(full.counts, full.numbers, tag, most - 1)
            self.row_refused(3, 0, full, tag, most)


class Columns(RuleTest):
    def column(self, day, place, room=None):
        return shipper_column(day.counts, day.numbers, place, room)

    def test_columns(self):
        for place in range(1, 6):
            self.assertEqual([place, place + 5], self.column(DAY, place))
        self.assertEqual([], self.column(make_day(), 3, room=0))

    def test_unequal_lists(self):
        self.refused(9, 0, self.column, DAY._replace(numbers=DAY.numbers[1:]), 1)

    def test_counts(self):
        for tag, most in MOST:
            self.column(with_rows(tag, most), 1)
            self.refused(3, 0, self.column, with_rows(tag, most + 1), 1)

    def test_bounds(self):
        self.assertEqual([1, MILLION], self.column(changed(7, MILLION), 1))
        self.refused(3, 1, self.column, changed(7, MILLION + 1), 1)
        self.refused(3, 0, self.column, changed(1, 2**64 - 1, changed(7, MILLION + 1)), 1)
        self.assertEqual([2, 7], self.column(changed(7, MILLION + 1), 2))
        self.assertEqual([2, 7], self.column(changed(6, 0), 2))

    def test_room(self):
        self.assertEqual([5, 10], self.column(DAY, 5, room=2))
        self.refused(7, 0, self.column, DAY, 5, room=1)
        self.refused(3, 1, self.column, changed(11, MILLION + 1), 5, room=1)


class Shares(RuleTest):
    def test_they_are_those_of_the_lists(self):
        lists = [[place, place + 5] for place in range(1, 6)]
        self.assertEqual(share_day(300, 100, *lists), share_numbers(DAY))

    def test_unequal_lists(self):
        beyond = make_day((1, MILLION + 1, 0), [(7, 1, 1, 1, 1, 1)])
        self.refused(9, 0, share_numbers, beyond._replace(numbers=beyond.numbers[:-1]))

    def test_single_figures_before_rows(self):
        row = (7, MILLION + 1, 0, 0, 0, 0)
        for head in ((1, MILLION + 1, 0), (1, 0, MILLION + 1)):
            self.refused(3, 0, share_numbers, make_day(head, [(5, 0, 0, 0, 0, 0), row]))
        self.refused(3, 1, share_numbers, make_day((1, MILLION, MILLION), [(5, 0, 0, 0, 0, 0), row]))

    def test_counts(self):
        for tag, most in MOST:
            share_numbers(with_rows(tag, most))
            self.refused(3, 0, share_numbers, with_rows(tag, most + 1))

    def test_columns_in_order(self):
        for place in range(1, 5):
            later = changed(place + 1, MILLION + 1, changed(6 + place, MILLION + 1))
            self.refused(3, 1, share_numbers, later)

    def test_firm_rows_before_auction_rows(self):
        """List by list, where the writer goes row by row."""
        shippers = [(1, 5, 0, 1, 1, 0), (2, 0, 5, 1, 1, 0)]
        self.refused(4, 1, share_numbers, make_day(shippers=shippers))
        self.refused(4, 0, write_day, make_day(shippers=shippers))
        self.refused(4, 0, share_numbers, make_day(shippers=shippers[:1]))

    def test_room(self):
        for index in range(3):
            rooms = [2, 2, 2]
            rooms[index] = 1
            self.refused(7, 0, share_numbers, DAY, rooms)
        share_numbers(DAY, (2, 3, 64))

    def test_names_and_other_tables(self):
        shares = share_numbers(DAY)
        for at, number in ((0, 0), (6, 65_536), (12, 2), (25, 0), (93, 0), (152, 2**32)):
            self.assertEqual(shares, share_numbers(changed(at, number)))
