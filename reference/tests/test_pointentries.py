"""The entries of a point and the check beside it."""

import unittest

from dayformat import ENTRY, HEAD, SHIPPER, write_field
from pointentries import check_entries, entries_of_point


def run(*rows):
    return b"".join(write_field(ENTRY, row) for row in rows)


RECEIPT = run((0, 3, 7, 1), (0, 3, 9, 2), (0, 5, 7, 3), (0, 6, 1, 4))
DELIVERY = run((1, 3, 8, 1), (1, 4, 8, 2))
FAULTY = b"\x04"


class Parts(unittest.TestCase):
    def found(self, part, receipt, delivery, side, point):
        self.assertEqual(part, entries_of_point(receipt, delivery, side, point))
        self.assertIsNone(check_entries(receipt, delivery, side, point))

    def test_parts(self):
        self.found((0, 0, 24), RECEIPT, DELIVERY, 0, 3)
        self.found((0, 24, 36), RECEIPT, DELIVERY, 0, 5)
        self.found((0, 36, 48), RECEIPT, DELIVERY, 0, 6)
        self.found((1, 0, 12), RECEIPT, DELIVERY, 1, 3)
        self.found((1, 12, 24), RECEIPT, DELIVERY, 1, 4)

    def test_lacking(self):
        self.found((0, 48, 48), RECEIPT, DELIVERY, 0, 4)
        self.found((1, 24, 24), RECEIPT, DELIVERY, 1, 65_535)
        self.found((0, 0, 0), b"", DELIVERY, 0, 3)
        self.found((1, 0, 0), RECEIPT, b"", 1, 3)

    def test_the_other_list_is_not_tested(self):
        self.found((0, 0, 24), RECEIPT, FAULTY, 0, 3)
        self.found((1, 0, 12), FAULTY, DELIVERY, 1, 3)


class Refusals(unittest.TestCase):
    def faulty(self, number, place, entries, side=0):
        """The asked list is refused, and its part is the empty one at its end."""
        lists = (entries, b"") if side == 0 else (b"", entries)
        refusal = check_entries(*lists, side, 3)
        self.assertEqual((number, place), (refusal.number, refusal.place))
        self.assertEqual((side, len(entries), len(entries)), entries_of_point(*lists, side, 3))

    def test_asked_side(self):
        for side in (2, 255):
            refusal = check_entries(FAULTY, FAULTY, side, 3)
            self.assertEqual((3, 0), (refusal.number, refusal.place))
            self.assertEqual((0, 48, 48), entries_of_point(RECEIPT, DELIVERY, side, 3))

    def test_asked_point(self):
        for point in (0, 65_536):
            refusal = check_entries(RECEIPT, DELIVERY + FAULTY, 1, point)
            self.assertEqual((3, 0), (refusal.number, refusal.place))
            self.assertEqual((1, 24, 24), entries_of_point(RECEIPT, DELIVERY, 1, point))

    def test_truncated(self):
        self.faulty(1, 48, RECEIPT + b"\x04\x00")
        self.faulty(1, 48, RECEIPT + RECEIPT[:11])
        self.faulty(1, 24, DELIVERY + b"\x04", side=1)

    def test_tags_and_lengths(self):
        self.faulty(2, 0, write_field(HEAD, (1, 1, 1)) + RECEIPT)
        self.faulty(2, 48, RECEIPT + write_field(SHIPPER, (1, 1, 1, 1, 1, 1)))
        self.faulty(2, 48, RECEIPT + b"\x05\x01\x0e")
        self.faulty(2, 48, RECEIPT + b"\x04\x00\x0a" + bytes(10))

    def test_other_side(self):
        self.faulty(3, 12, run((0, 3, 7, 1), (1, 3, 9, 1)))
        self.faulty(3, 0, RECEIPT, side=1)
        self.faulty(3, 12, run((1, 3, 7, 1), (0, 4, 9, 1)), side=1)

    def test_bounds(self):
        self.faulty(3, 12, run((0, 3, 7, 1), (0, 0, 9, 1)))
        self.faulty(3, 12, run((0, 3, 7, 1), (0, 3, 0, 1)))
        self.faulty(3, 12, run((0, 3, 7, 1), (0, 3, 8, 100_000_001)))
        self.assertIsNone(check_entries(run((0, 65_535, 65_535, 100_000_000)), b"", 0, 3))

    def test_keys(self):
        self.faulty(5, 12, run((0, 3, 7, 1), (0, 3, 7, 2)))
        self.faulty(5, 12, run((0, 3, 7, 1), (0, 2, 9, 2)))

    def test_five_hundred_and_twelve(self):
        rows = [(0, 3, shipper, 0) for shipper in range(1, 514)]
        self.assertEqual((0, 0, 512 * 12), entries_of_point(run(*rows[:512]), b"", 0, 3))
        self.faulty(3, 512 * 12, run(*rows))
