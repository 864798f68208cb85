"""An hour at a point, laid as lines."""

import unittest

from dayformat import ENTRY, write_field
from days import make_day
from pointhours import put_hour

DAY = make_day(shippers=[(9, 100, 0, 0, 0, 0), (7, 300, 0, 0, 0, 0), (8, 0, 0, 0, 0, 0)])
PART = b"".join(write_field(ENTRY, (1, 3, *entry)) for entry in ((7, 4_000), (9, 2_000)))
TEXT = b"7 6250\n9 2750\n"


def laid(block, at=0, part=PART, capacity=9_000, day=DAY):
    return put_hour(day.counts, day.numbers, part, capacity, block, at)


class Hours(unittest.TestCase):
    def test_lines(self):
        self.assertEqual((14, TEXT), laid(b"x" * 14))
        self.assertEqual((14, b"7 3333\n9 1666\n"), laid(b"x" * 14, capacity=5_000))
        self.assertEqual((0, b"x"), laid(b"x", part=b""))
        self.assertEqual((7, b"7 9000\n"), laid(b"x" * 7, part=PART[:12]))

    def test_the_refusal_stands_in_their_place(self):
        idle = b"".join(write_field(ENTRY, (1, 3, 8, own)) for own in (1, 1))
        self.assertEqual((12, b"REFUSED 6 0\n"), laid(b"x" * 12, part=idle, capacity=3))
        self.assertEqual((8, b"8 1\n8 1\n"), laid(b"x" * 8, part=idle, capacity=2))
        self.assertEqual(b"REFUSED 3 0\n", laid(b"x" * 12, capacity=100_000_001)[1])
        self.assertEqual(b"REFUSED 3 0\n", laid(b"x" * 12, part=PART[:12] * 65)[1])

    def test_any_bytes(self):
        """A header is not looked at, and bytes after the last whole field are no entry."""
        self.assertEqual((14, TEXT), laid(b"x" * 14, part=b"\0\0\0" + PART[3:] + b"\4\0\x09"))

    def test_blocks(self):
        for room in range(16):
            self.assertEqual((14, (TEXT + b"xx")[:room]), laid(b"x" * room))

    def test_places(self):
        self.assertEqual((14, b"xx" + TEXT + b"x"), laid(b"x" * 17, at=2))
        self.assertEqual((14, b"xx7 6"), laid(b"x" * 5, at=2))
        for at in (5, 6, 2**64 - 1):
            self.assertEqual((14, b"x" * 5), laid(b"x" * 5, at=at))

    def test_an_mdq_past_the_list(self):
        """Shipper 7's counts as zero, so that 9 has all that is left over."""
        short = DAY._replace(numbers=DAY.numbers[:7], counts=DAY.counts._replace(shippers=2))
        self.assertEqual((14, b"7 4000\n9 5000\n"), laid(b"x" * 14, day=short))
