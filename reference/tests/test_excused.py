"""Gas excused under cl. 5.4 in the day file (C-14): tag 9's bytes, its faults, its round trips, its
rows in memory, and what the listings make of it."""

import pathlib
from random import Random

from cases import SEED, put
from cormcushion import listing
from dayfile import Head, day_of, file_size, read_day, tables_of, write_day
from dayformat import EXCUSED, HEAD, METER, SHIPPER, write_field
from daymeters import (
    excused_at,
    excused_hours,
    excused_row,
    excused_shipper,
    excused_yesterday,
)
from days import excused_gas, make_day, meter, some_day
from support import RuleTest

EXAMPLES = pathlib.Path(__file__).resolve().parent.parent.parent / "examples"

LARGEST = 0xFFFF_FFFF
SHIPPERS = [(name, 1, 0, 0, 0, 0) for name in (7, 8, 9)]
METERS = [meter(7, delivered=30, received=40), meter(9, delivered=5, received=6)]
EXCUSED_ROWS = [excused_gas(7, 30, 40), excused_gas(9, 4, 6)]

# Where the tag 9 fields of a file of these begin, and where it ends.
FIRST = 15 + 3 * 25 + 2 * 273
SECOND, END = FIRST + 241, FIRST + 2 * 241


def day_with(excused, meters=METERS, shippers=SHIPPERS):
    return make_day(shippers=shippers, meters=meters, excused=excused)


def file_with(excused, meters=METERS, shippers=SHIPPERS):
    """A file of these rows, sound or not."""
    rows = {HEAD: [(1, 300, 100)], SHIPPER: shippers, METER: meters, EXCUSED: excused}
    return b"".join(write_field(tag, row) for tag in rows for row in rows[tag])


def with_hour(row, hour, quantity):
    """A row with another quantity in one of its 59 hours."""
    return tuple(put(row, 1 + hour, quantity))


class Bytes(RuleTest):
    def test_field(self):
        field = write_field(EXCUSED, (7, *range(1, 60)))
        self.assertEqual(bytes.fromhex("09 00ee 0007 00000001 00000002"), field[:13])
        self.assertEqual((241, 59), (len(field), field[-1]))

    def test_round_trips(self):
        day = day_with(EXCUSED_ROWS)
        file = write_day(day, room=END)
        self.assertEqual((3, 0, 0, 2, 2), day.counts)
        self.assertEqual((END, END), (len(file), file_size(day.counts)))
        self.assertEqual(file_with(EXCUSED_ROWS), file)
        self.assertEqual(day, read_day(file, room=3 * 6 + 2 * 68 + 2 * 60))

    def test_zeros_are_written_again_and_absent_ones_stay_absent(self):
        for excused in ([], [excused_gas(7)], [excused_gas(9)], [excused_gas(7), excused_gas(9)]):
            file = file_with(excused)
            day = read_day(file)
            self.assertEqual(len(excused), day.counts.excused)
            self.assertEqual(file, write_day(day))

    def test_room(self):
        day = day_with(EXCUSED_ROWS)
        self.refused(7, 0, write_day, day, room=END - 1)
        self.refused(7, 0, read_day, write_day(day), room=len(day.numbers) - 1)


class Headers(RuleTest):
    FILE = file_with(EXCUSED_ROWS)

    def test_every_cut(self):
        for length in range(FIRST + 1, END):
            if length != SECOND:
                place = FIRST if length < SECOND else SECOND
                self.refused(1, place, read_day, self.FILE[:length])

    def test_length(self):
        for length in (0, 237, 239, 270, 238 + 256):
            file = self.FILE[: FIRST + 1] + length.to_bytes(2, "big") + self.FILE[FIRST + 3 :]
            self.refused(2, FIRST, read_day, file)

    def test_neighbours_are_unknown(self):
        for tag in (6, 7, 8, 10):
            file = self.FILE[:FIRST] + bytes([tag]) + self.FILE[FIRST + 1 :]
            self.refused(2, FIRST, read_day, file)

    def test_it_follows_every_other_tag(self):
        for start, end in ((0, 15), (15, 40), (90, 363)):
            self.refused(2, END, read_day, self.FILE + self.FILE[start:end])

    def test_before_its_meter(self):
        first, second = (write_field(METER, row) for row in METERS)
        excused = [write_field(EXCUSED, row) for row in EXCUSED_ROWS]
        head = self.FILE[:90]
        self.refused(5, 90, read_day, head + excused[0] + first)
        self.refused(5, 90 + 273, read_day, head + first + excused[1] + second)
        self.refused(2, 90 + 273 + 241, read_day, head + first + excused[0] + second)


class Faults(RuleTest):
    def both_refuse(self, number, row, excused, **tables):
        """The reader at the row's field, the writer at the row."""
        file = file_with(excused, **tables)
        place = len(file) - (len(excused) - row) * 241
        self.refused(number, place, read_day, file)
        self.refused(number, row, write_day, day_with(excused, **tables), room=0)

    def test_above_the_metered_hour(self):
        """In each hour of both rows; equal to it is sound."""
        for row, own in enumerate(METERS):
            for hour, metered in enumerate(own[3:62]):
                changed = [with_hour(EXCUSED_ROWS[row], hour, metered + beyond) for beyond in (0, 1)]
                read_day(file_with(put(EXCUSED_ROWS, row, changed[0])))
                self.both_refuse(3, row, put(EXCUSED_ROWS, row, changed[1]))

    def test_another_shippers_meter(self):
        self.both_refuse(3, 0, [excused_gas(9, 30, 40)])

    def test_an_hour_of_48_000(self):
        metered = [meter(7, delivered=48_000)]
        write_day(day_with([excused_gas(7, 48_000)], metered))
        self.both_refuse(3, 0, [excused_gas(7, 48_001)], meters=metered)

    def test_no_meter(self):
        """5 whatever is excused, for a listed shipper as for another."""
        for shipper in (8, 6, 65_535):
            for quantity in (0, LARGEST):
                self.both_refuse(5, 0, [excused_gas(shipper, quantity, quantity)])

    def test_shipper_0(self):
        self.both_refuse(3, 0, [excused_gas(0)])

    def test_keys(self):
        self.both_refuse(5, 1, [EXCUSED_ROWS[0]] * 2)
        self.both_refuse(5, 1, EXCUSED_ROWS[::-1])

    def test_3_before_5(self):
        self.both_refuse(3, 1, [EXCUSED_ROWS[0], excused_gas(7, 31)])
        self.both_refuse(3, 1, [EXCUSED_ROWS[1], excused_gas(7, 30, 41)])
        self.both_refuse(3, 0, [excused_gas(0, LARGEST)])

    def test_a_65th_field(self):
        names = range(1, 66)
        shippers = [(name, 1, 0, 0, 0, 0) for name in names[:64]]
        meters = [meter(name) for name in names[:64]]
        excused = [excused_gas(name) for name in names]
        file = file_with(excused, meters, shippers)
        last = len(file) - 241
        read_day(file[:last])
        self.refused(3, last, read_day, file)
        self.refused(1, last, read_day, file[:-1])
        self.refused(3, 0, write_day, day_with(excused, meters, shippers))


class Writer(RuleTest):
    """Number by number over all tables, in the file's order."""

    def test_beyond_32_bits(self):
        for shipper in (7, 8):
            row = with_hour(excused_gas(shipper), 58, LARGEST + 1)
            self.refused(3, 0, write_day, day_with([row]))
        self.refused(3, 1, write_day, day_with(put(EXCUSED_ROWS, 1, (2**32 + 9, *[0] * 59))))

    def test_order(self):
        above, unlisted = [excused_gas(7, 31)], [excused_gas(8)]
        no_mdq = [(7, 0, 0, 1, 0, 0), *SHIPPERS[1:]]
        short = day_with(above)
        self.refused(9, 0, write_day, short._replace(numbers=short.numbers[:-1]))
        self.refused(3, 0, write_day, short._replace(head=Head(0, 1_000_001, 0)))
        beyond = meter(9, received=100_000_001)
        self.refused(3, 1, write_day, day_with(above, [METERS[0], beyond]))
        self.refused(3, 0, write_day, day_with(above, METERS[::-1], no_mdq))
        self.refused(5, 1, write_day, day_with(unlisted, METERS[::-1]))
        self.refused(5, 0, write_day, day_with(unlisted, shippers=no_mdq))
        self.refused(4, 0, write_day, day_with(EXCUSED_ROWS, shippers=no_mdq), room=0)

    def test_a_shipper_with_two_meters(self):
        """3 unless one of them has every hour; that there are two is 5."""
        meters = [meter(7, delivered=3, received=4), meter(7, delivered=4, received=3)]
        for hours in ((3, 4), (4, 3), (0, 0)):
            self.refused(5, 1, write_day, day_with([excused_gas(7, *hours)], meters))
        for hours in ((4, 4), (5, 0)):
            self.refused(3, 0, write_day, day_with([excused_gas(7, *hours)], meters))


class InMemory(RuleTest):
    # Shipper 9's quantities are 1, 2 and so on.
    DAY = make_day(meters=[meter(7)], excused=[excused_gas(7, LARGEST), (9, *range(1, 60))])

    def test_hours(self):
        counts, numbers = self.DAY.counts, self.DAY.numbers
        self.assertEqual(9, excused_shipper(counts, numbers, 1))
        self.assertEqual([*range(1, 12)], excused_yesterday(counts, numbers, 1))
        hours = excused_hours(counts, numbers, 1)
        self.assertEqual(([*range(12, 36)], [*range(36, 60)]), hours)

    def test_a_row_is_tested_alone(self):
        """More than its meter has is no fault here, nor is a shipper without one."""
        for row in (0, 1):
            excused_at(self.DAY.counts, self.DAY.numbers, row)

    def row_refused(self, number, place, day, row):
        """The check and the shipper refuse, and the hours that are shown are zero."""
        self.refused(number, place, excused_at, day.counts, day.numbers, row)
        self.refused(number, place, excused_shipper, day.counts, day.numbers, row)
        self.assertEqual([0] * 11, [*excused_yesterday(day.counts, day.numbers, row)])
        delivered, received = excused_hours(day.counts, day.numbers, row)
        self.assertEqual(([0] * 24, [0] * 24), ([*delivered], [*received]))

    def test_refusals(self):
        counts, numbers = self.DAY.counts, self.DAY.numbers
        self.row_refused(9, 0, self.DAY._replace(numbers=numbers[:-1]), 1)
        too_many = counts._replace(excused=65)
        self.row_refused(3, 0, self.DAY._replace(counts=too_many, numbers=[0] * (68 + 65 * 60)), 1)
        self.row_refused(3, 0, self.DAY, 2)
        for place, number in ((0, 0), (0, 65_536), (1, LARGEST + 1), (59, 2**64 - 1)):
            changed = put(numbers, 68 + 60 + place, number)
            self.row_refused(3, 1, self.DAY._replace(numbers=changed), 1)

    def test_row_of_a_shipper(self):
        counts, numbers = self.DAY.counts, self.DAY.numbers
        for shipper, row in ((7, 0), (9, 1), (8, 2), (0, 2), (LARGEST, 2)):
            self.assertEqual(row, excused_row(counts, numbers, shipper))
        self.assertEqual(2, excused_row(counts, [], 7))
        self.assertEqual(0, excused_row(counts, [], 0))
        many = counts._replace(excused=LARGEST)
        self.assertEqual((1, 2), (excused_row(many, numbers, 9), excused_row(many, numbers, 0)))
        twice = make_day(excused=[excused_gas(9), excused_gas(7), excused_gas(7)])
        self.assertEqual(1, excused_row(twice.counts, twice.numbers, 7))


class Listings(RuleTest):
    OVER = meter(7, 1_000, 1_000, delivered=48_000, schedules=(0, 1_152, 0, 0))
    BOTH_SIDES = (7, 1_000, 1_000, *[0] * 11, *[50_001] * 24, *[44_002] * 24, 1_200, 1_200, *[0] * 4)

    def charges(self, meters, excused):
        """The lines after the first."""
        text = listing("charges", [], file_with(excused, meters))
        return text.splitlines()[1:]

    def test_a_day_over_its_twelve_hours(self):
        self.assertEqual(["7 0 288000 0 0 288000 103392"], self.charges([self.OVER], []))
        self.assertEqual(["7 0 288000 0 0 288000 103392"], self.charges([self.OVER], [excused_gas(7)]))
        self.assertEqual(["7 0 0 0 0 0 0"], self.charges([self.OVER], [excused_gas(7, 1_000)]))
        first_hour = with_hour(excused_gas(7), 11, 1_000)
        self.assertEqual(["7 0 276000 0 0 276000 99084"], self.charges([self.OVER], [first_hour]))

    def test_both_sides(self):
        """The daily overruns go on counting what is excused."""
        excused = (7, *[0] * 11, *[1] * 48)
        self.assertEqual(["7 24 468000 0 24 468000 168012"], self.charges([self.BOTH_SIDES], [excused]))

    def test_each_shipper_has_its_own(self):
        meters = [(name, *self.OVER[1:]) for name in (7, 8, 9)]
        expected = ["7 0 288000 0 0 288000 103392", "8 0 0 0 0 0 0", "9 0 288000 0 0 288000 103392"]
        self.assertEqual(expected, self.charges(meters, [excused_gas(8, 1_000)]))

    def test_shares_and_points_do_without(self):
        for name in ("shares", "points"):
            expected = listing(name, [], file_with([]))
            for excused in ([excused_gas(9)], EXCUSED_ROWS):
                self.assertEqual(expected, listing(name, [], file_with(excused)))


class Laws(RuleTest):
    def with_rows(self, day, excused):
        """The file of a day that has other tag 9 rows."""
        return write_day(day_of({**tables_of(day), EXCUSED: excused}))

    def overruns_of(self, file):
        """Hourly and twelve-hourly, then the daily ones, for each meter."""
        lines = [line.split() for line in listing("charges", [], file).splitlines()[1:]]
        return [([int(figure) for figure in line[1:3]], line[3:5]) for line in lines]

    def test_days_by_chance(self):
        """Without tag 9, and with zeros, a day has the same shares and points; its charges are those
        of nothing excused, no less by the hour and by twelve, and the same by the day."""
        chance = Random(f"{SEED} excused")
        for _ in range(150):
            day = some_day(chance)
            zeros = [excused_gas(row[0]) for row in tables_of(day)[METER]]
            file, without, with_zeros = write_day(day), self.with_rows(day, []), self.with_rows(day, zeros)
            for name in ("shares", "points"):
                self.assertEqual(listing(name, [], without), listing(name, [], file))
            self.assertEqual(listing("charges", [], without), listing("charges", [], with_zeros))
            for former, latter in zip(self.overruns_of(without), self.overruns_of(file)):
                self.assertEqual(former[1], latter[1])
                self.assertTrue(all(less <= more for less, more in zip(latter[0], former[0])))


class CoolDay(RuleTest):
    """What README.md shows: the example day, and the same without its one tag 9 field."""

    WITH = EXAMPLES.joinpath("cool.day").read_bytes()
    WITHOUT = WITH[: -2 * 241]

    def test_two_fields(self):
        self.assertEqual(2, read_day(self.WITH).counts.excused)
        self.assertEqual(0, read_day(self.WITHOUT).counts.excused)

    def test_one_charge_is_less_and_one_is_gone(self):
        lines = [listing("charges", [], file).splitlines() for file in (self.WITHOUT, self.WITH)]
        changed = [pair for pair in zip(*lines) if pair[0] != pair[1]]
        charges = [[int(line.split()[-1]) for line in pair] for pair in changed]
        self.assertEqual([[804533, 225104], [16514, 0]], charges)

    def test_the_other_listings_stay(self):
        for name in ("shares", "points"):
            self.assertEqual(listing(name, [], self.WITHOUT), listing(name, [], self.WITH))
