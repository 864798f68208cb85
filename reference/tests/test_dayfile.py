"""The day file without tag 9: its bytes, every kind of fault, and both round trips."""

from cases import put
from dayfile import Counts, Day, Head, file_size, read_day, write_day
from dayformat import ENTRY, FORMS, HEAD, METER, POINT, SHIPPER, write_field
from days import full_day, make_day, meter
from support import RuleTest

SHIPPERS = [(7, 400, 50, 300, 20, 10), (9, 200, 0, 60, 0, 0)]
POINTS = [(0, 3, 9_000), (1, 3, 5_000)]
ENTRIES = [(0, 3, 7, 4_000), (0, 3, 9, 2_000), (1, 3, 9, 1_000)]
METERS = [meter(7, 1_000, 2_000, 3, 4, (5, 6, 7, 8), (9, 10)), meter(9)]

# Where each field of the small file begins.
STARTS = {HEAD: [0], SHIPPER: [15, 40], POINT: [65, 75], ENTRY: [85, 97, 109], METER: [121, 394]}
END = 667


def small_day(**changed):
    rows = {"shippers": SHIPPERS, "points": POINTS, "entries": ENTRIES, "meters": METERS}
    return make_day((1, 300, 100), **{**rows, **changed})


def file_of(*fields):
    """A file of given tags and rows, sound or not."""
    return b"".join(write_field(tag, row) for tag, row in fields)


def fields(tag, rows):
    return [(tag, row) for row in rows]


SMALL = write_day(small_day())
HEAD_FIELD = (HEAD, (1, 300, 100))


class Bytes(RuleTest):
    def test_small_file_byte_for_byte(self):
        day = make_day(
            (1, 300, 100),
            [(7, 400, 0, 1, 0, 2)],
            [(1, 258, 3)],
            [(1, 258, 7, 4)],
        )
        expected = (
            "01 000c 00000001 0000012c 00000064"
            "02 0016 0007 00000190 00000000 00000001 00000000 00000002"
            "03 0007 01 0102 00000003"
            "04 0009 01 0102 0007 00000004"
        )
        self.assertEqual(bytes.fromhex(expected), write_day(day))

    def test_meter_field(self):
        numbers = (7, *range(1, 68))
        field = write_field(METER, numbers)
        self.assertEqual(bytes.fromhex("05 010e 0007 00000001 00000002"), field[:13])
        self.assertEqual(273, len(field))
        self.assertEqual(67, field[-1])

    def test_lengths(self):
        self.assertEqual([12, 22, 7, 9, 270, 238], [FORMS[tag].length for tag in FORMS])

    def test_round_trips(self):
        self.assertEqual(END, len(SMALL))
        self.assertEqual(small_day(), read_day(SMALL))
        self.assertEqual(SMALL, write_day(read_day(SMALL)))

    def test_head_alone(self):
        file = file_of((HEAD, (0xFFFF_FFFF, 1_000_000, 1_000_000)))
        day = Day(Head(0xFFFF_FFFF, 1_000_000, 1_000_000), Counts(0, 0, 0, 0, 0), [])
        self.assertEqual(day, read_day(file, room=0))
        self.assertEqual(file, write_day(day, room=15))

    def test_full_day(self):
        day = full_day()
        self.assertEqual((64, 32, 512, 64, 64), day.counts)
        self.assertEqual(10_720, len(day.numbers))
        file = write_day(day, room=40_975)
        self.assertEqual(40_975, len(file))
        self.assertEqual(40_975, file_size(day.counts))
        self.assertEqual(day, read_day(file, room=len(day.numbers)))
        self.assertEqual(file, write_day(read_day(file)))


class Truncated(RuleTest):
    def test_empty(self):
        self.refused(1, 0, read_day, b"")

    def test_every_cut(self):
        """A file cut within a field is 1 at that field; cut between fields it is sound."""
        starts = sorted(start for some in STARTS.values() for start in some)
        for length in range(1, END):
            cut = SMALL[:length]
            if length in starts:
                self.assertEqual(cut, write_day(read_day(cut)))
            else:
                self.refused(1, max(start for start in starts if start < length), read_day, cut)

    def test_header_left_over(self):
        self.refused(1, END, read_day, SMALL + b"\x09")
        self.refused(1, END, read_day, SMALL + b"\x09\x00")

    def test_wrong_header_before_missing_body(self):
        self.refused(2, END, read_day, SMALL + b"\x06\x00\x00")
        self.refused(2, END, read_day, SMALL + b"\x05\x01\x0d")
        self.refused(1, END, read_day, SMALL + b"\x05\x01\x0e")


class Tags(RuleTest):
    def test_unknown(self):
        for tag in (0, 6, 255):
            self.refused(2, 15, read_day, SMALL[:15] + bytes([tag]) + SMALL[16:])

    def test_first_is_not_head(self):
        self.refused(2, 0, read_day, SMALL[15:])

    def test_second_head(self):
        self.refused(2, 15, read_day, SMALL[:15] * 2)
        self.refused(2, END, read_day, SMALL + SMALL[:15])

    def test_falling(self):
        for tag, later in ((SHIPPER, POINT), (POINT, ENTRY), (ENTRY, METER)):
            start, end = STARTS[tag][0], STARTS[tag][1]
            at = STARTS[later][0] + FORMS[later].length + 3
            self.refused(2, at, read_day, SMALL[:at] + SMALL[start:end])

    def test_wrong_length(self):
        for starts in STARTS.values():
            for change in (-1, 1):
                at = starts[0]
                length = int.from_bytes(SMALL[at + 1 : at + 3], "big") + change
                file = SMALL[: at + 1] + length.to_bytes(2, "big") + SMALL[at + 3 :]
                self.refused(2, at, read_day, file)


def bounds():
    """Each number of the rows that the small file has: tag, column, least, greatest, largest that fits."""
    for tag in STARTS:
        for index, column in enumerate(FORMS[tag].columns):
            yield tag, index, column.bound[0], column.bound[-1], 256**column.width - 1


class Bounds(RuleTest):
    ROWS = {HEAD: [(1, 300, 100)], SHIPPER: SHIPPERS, POINT: POINTS, ENTRY: ENTRIES, METER: METERS}

    def file_with(self, tag, index, number):
        """The small file with one number of a tag's first field put in place of another."""
        rows = {**self.ROWS, tag: put(self.ROWS[tag], 0, put(self.ROWS[tag][0], index, number))}
        return file_of(*(field for other in rows for field in fields(other, rows[other])))

    def test_columns_hold_01s_bounds(self):
        gigajoules, megajoules = (0, 1_000_000), (0, 100_000_000)
        name, side = (1, 65_535), (0, 1)
        expected = {
            HEAD: [(0, 0xFFFF_FFFF), gigajoules, gigajoules],
            SHIPPER: [name, *[gigajoules] * 5],
            POINT: [side, name, megajoules],
            ENTRY: [side, name, name, megajoules],
            METER: [
                name,
                *[gigajoules] * 2,
                *[megajoules] * 59,
                *[gigajoules] * 4,
                *[(0, 2_400_000_000)] * 2,
            ],
        }
        for tag, index, least, greatest, _ in bounds():
            self.assertEqual(expected[tag][index], (least, greatest), (tag, index))

    def test_one_beyond(self):
        for tag, index, least, greatest, largest in bounds():
            with self.subTest(tag=tag, column=index):
                for number in (least - 1, greatest + 1, largest):
                    if 0 <= number <= largest and not least <= number <= greatest:
                        file = self.file_with(tag, index, number)
                        self.refused(3, STARTS[tag][0], read_day, file)

    def test_edges(self):
        """No number at its edge is 3; a key at its edge may be 5."""
        for tag, index, least, greatest, _ in bounds():
            for number in (least, greatest):
                if index >= FORMS[tag].key:
                    with self.subTest(tag=tag, column=index, number=number):
                        self.read_unless_4(self.file_with(tag, index, number))

    def read_unless_4(self, file):
        """Zero MDQs below a schedule are 4 at that field."""
        shipper = file[15:40]
        firm_mdq, auction_mdq = shipper[5:9], shipper[9:13]
        if bytes(4) in (firm_mdq, auction_mdq):
            self.refused(4, 15, read_day, file)
        else:
            self.assertEqual(file, write_day(read_day(file)))

    def test_zero_keys(self):
        self.refused(3, 15, read_day, self.file_with(SHIPPER, 0, 0))
        self.refused(3, 65, read_day, self.file_with(POINT, 1, 0))
        self.refused(3, 85, read_day, self.file_with(ENTRY, 1, 0))
        self.refused(3, 85, read_day, self.file_with(ENTRY, 2, 0))
        self.refused(3, 121, read_day, self.file_with(METER, 0, 0))


class Counted(RuleTest):
    """One field too many is 3 at that field, and 3 at place 0 for the writer."""

    NAMES = range(1, 66)
    LISTED = [(name, 1, 1, 0, 0, 0) for name in NAMES]
    LISTED_POINTS = [(0, point, 1) for point in range(1, 34)]

    def too_many(self, tag, rows, before, **tables):
        whole = file_of(HEAD_FIELD, *before, *fields(tag, rows))
        last = len(whole) - FORMS[tag].length - 3
        read_day(whole[:last])
        self.refused(3, last, read_day, whole)
        self.refused(1, last, read_day, whole[:-1])
        self.refused(3, 0, write_day, make_day(**tables))

    def test_shippers(self):
        self.too_many(SHIPPER, self.LISTED, [], shippers=self.LISTED)

    def test_points(self):
        self.too_many(POINT, self.LISTED_POINTS, [], points=self.LISTED_POINTS)

    def test_entries(self):
        shippers, points = self.LISTED[:64], self.LISTED_POINTS[:9]
        entries = [(0, point, name[0], 0) for _, point, _ in points for name in shippers][:513]
        before = fields(SHIPPER, shippers) + fields(POINT, points)
        self.too_many(ENTRY, entries, before, shippers=shippers, points=points, entries=entries)

    def test_meters(self):
        shippers = self.LISTED[:64]
        meters = [meter(name) for name in self.NAMES]
        before = fields(SHIPPER, shippers)
        self.too_many(METER, meters, before, shippers=shippers, meters=meters)


class Keys(RuleTest):
    def both_refuse(self, place, row, **tables):
        """The reader at the field, the writer at the row."""
        day = small_day(**tables)
        rows = [(SHIPPER, "shippers"), (POINT, "points"), (ENTRY, "entries"), (METER, "meters")]
        kept = {"shippers": SHIPPERS, "points": POINTS, "entries": ENTRIES, "meters": METERS}
        kept.update(tables)
        file = file_of(HEAD_FIELD, *(field for tag, name in rows for field in fields(tag, kept[name])))
        self.refused(5, place, read_day, file)
        self.refused(5, row, write_day, day)

    def test_equal(self):
        self.both_refuse(40, 1, shippers=[SHIPPERS[0]] * 2)
        self.both_refuse(75, 1, points=[POINTS[0]] * 2)
        self.both_refuse(97, 1, entries=[ENTRIES[0]] * 2)
        self.both_refuse(394, 1, meters=[METERS[0]] * 2)

    def test_falling(self):
        self.both_refuse(40, 1, shippers=SHIPPERS[::-1])
        self.both_refuse(75, 1, points=POINTS[::-1])
        self.both_refuse(97, 1, entries=[(0, 3, 9, 1), (0, 3, 7, 1)])
        self.both_refuse(97, 1, entries=[(1, 3, 7, 1), (0, 3, 9, 1)])
        self.both_refuse(394, 1, meters=METERS[::-1])

    def test_earlier_columns_count_first(self):
        points = [(0, 3, 1), (0, 4, 1), (1, 2, 1)]
        entries = [(0, 3, 9, 1), (0, 4, 7, 1), (1, 2, 7, 1)]
        write_day(small_day(points=points, entries=entries))
        self.both_refuse(85, 2, points=[(0, 3, 1), (0, 4, 1), (0, 2, 1)], entries=[])

    def test_not_listed(self):
        self.both_refuse(85, 0, entries=[(0, 3, 8, 1)])
        self.both_refuse(85, 0, entries=[(0, 4, 7, 1)])
        self.both_refuse(75, 0, points=POINTS[:1], entries=[(1, 3, 7, 1)])
        self.both_refuse(121, 0, meters=[meter(8)])


class Order(RuleTest):
    """Within a field 3, 5, 4; the first faulty field wins. The writer goes number by number."""

    NO_MDQ = (7, 0, 0, 1, 0, 0)
    NO_AUCTION_MDQ = (7, 1, 0, 1, 1, 0)
    BEYOND = (7, 0, 0, 1_000_001, 0, 0)

    def test_schedule_without_mdq(self):
        for row in (self.NO_MDQ, self.NO_AUCTION_MDQ):
            self.refused(4, 15, read_day, file_of(HEAD_FIELD, (SHIPPER, row)))
            self.refused(4, 0, write_day, make_day(shippers=[row]))

    def test_within_a_field(self):
        for number, row in ((3, self.BEYOND), (5, self.NO_MDQ)):
            file = file_of(HEAD_FIELD, (SHIPPER, SHIPPERS[1]), (SHIPPER, row))
            self.refused(number, 40, read_day, file)

    def test_first_field(self):
        file = file_of(HEAD_FIELD, (SHIPPER, self.NO_MDQ), (SHIPPER, self.BEYOND))
        self.refused(4, 15, read_day, file)
        self.refused(4, 15, read_day, file[:-1], room=0)

    def test_writer(self):
        bad_point, unlisted = (0, 3, 100_000_001), (0, 3, 8, 1)
        faulty = make_day((1, 1, 1), [self.NO_MDQ], [POINTS[0], bad_point], [unlisted])
        self.refused(9, 0, write_day, faulty._replace(numbers=faulty.numbers[:-1]))
        self.refused(9, 0, write_day, faulty._replace(numbers=[*faulty.numbers, 0]))
        self.refused(3, 0, write_day, faulty._replace(head=Head(0, 1_000_001, 0)))
        self.refused(3, 1, write_day, faulty)
        unlisted_day = make_day((1, 1, 1), [self.NO_MDQ], POINTS, [unlisted])
        self.refused(5, 0, write_day, unlisted_day, room=0)
        self.refused(4, 1, write_day, make_day((1, 1, 1), [(6, 1, 1, 1, 1, 1), self.NO_MDQ]), room=0)

    def test_writer_head(self):
        for head in ((2**32, 0, 0), (0, 1_000_001, 0), (0, 0, 1_000_001)):
            self.refused(3, 0, write_day, make_day(head))

    def test_writer_hour(self):
        beyond = meter(9, received=100_000_001)
        self.refused(3, 1, write_day, small_day(meters=[METERS[0], beyond]))


class Room(RuleTest):
    def test_reader(self):
        numbers = 2 * 6 + 2 * 3 + 3 * 4 + 2 * 68
        self.assertEqual(numbers, len(read_day(SMALL, room=numbers).numbers))
        self.refused(7, 0, read_day, SMALL, room=numbers - 1)
        self.refused(1, 394, read_day, SMALL[:-1], room=0)

    def test_writer(self):
        self.assertEqual(SMALL, write_day(small_day(), room=END))
        self.refused(7, 0, write_day, small_day(), room=END - 1)
