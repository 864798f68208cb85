"""What the programs print, and the command line."""

import pathlib
import subprocess
import sys
import unittest

from cormcushion import listing
from dayfile import write_day
from days import full_day, make_day, meter

PROGRAM = pathlib.Path(__file__).resolve().parent.parent / "cormcushion.py"

SHIPPERS = [(7, 300, 50, 300, 20, 10), (9, 100, 0, 60, 0, 0), (11, 0, 0, 0, 0, 5)]
POINTS = [(0, 1, 9_000), (0, 2, 5_000), (0, 3, 8), (1, 1, 77), (1, 2, 7_000)]
ENTRIES = [
    (0, 1, 7, 4_000),
    (0, 1, 9, 2_000),
    (0, 2, 7, 4_000),
    (0, 2, 9, 2_000),
    (1, 1, 11, 5),
    (1, 2, 9, 6_000),
    (1, 2, 11, 1_000),
]
METERS = [
    meter(7, 1_000, 1_000, 48_000, 0, (0, 1_152, 0, 0)),
    meter(9, 10, 10, 500, 441, (10, 12, 1, 0), (5_000, 0)),
]
DAY = make_day((20_190, 300, 100), SHIPPERS, POINTS, ENTRIES, METERS)
FILE = write_day(DAY)
SMALL = write_day(make_day())


class Listings(unittest.TestCase):
    def prints(self, text, name, words=(), file=FILE):
        self.assertEqual(text, listing(name, list(words), file))

    def test_shares(self):
        self.prints("DAY 20190 FIRM 360 LEFT 5\n7 300 20 10\n9 60 0 0\n11 0 0 5\n", "shares")

    def test_charges(self):
        # Shipper 9: 6,000 MJ in each twelve hours over 5,640; 441 over 440 received in each hour.
        self.prints(
            "DAY 20190 RATE 359000\n"
            "7 0 288000 0 0 288000 103392\n"
            "9 24 8640 4584 0 8640 3102\n",
            "charges",
        )

    def test_charges_at_a_rate(self):
        self.prints(
            "DAY 20190 RATE 1000000\n"
            "7 0 288000 0 0 288000 288000\n"
            "9 24 8640 4584 0 8640 8640\n",
            "charges",
            ["1000000"],
        )

    def test_points(self):
        self.prints(
            "DAY 20190\n"
            "POINT 0 1 9000\n7 6250\n9 2750\n"
            "POINT 0 2 5000\n7 3333\n9 1666\n"
            "POINT 0 3 8\n"
            "POINT 1 1 77\n11 77\n"
            "POINT 1 2 7000\n9 6000\n11 1000\n",
            "points",
        )

    def test_refused_point_stands_among_the_others(self):
        shippers = [(7, 0, 0, 0, 0, 0), (9, 0, 0, 0, 0, 0)]
        points = [(0, 1, 3), (0, 2, 2)]
        entries = [(0, point, name, 1) for point in (1, 2) for name in (7, 9)]
        self.prints(
            "DAY 5\nPOINT 0 1 3\nREFUSED 6 0\nPOINT 0 2 2\n7 1\n9 1\n",
            "points",
            file=write_day(make_day((5, 0, 0), shippers, points, entries)),
        )

    def test_empty_tables(self):
        self.prints("DAY 1 FIRM 0 LEFT 400\n", "shares", file=SMALL)
        self.prints("DAY 1 RATE 359000\n", "charges", file=SMALL)
        self.prints("DAY 1\n", "points", file=SMALL)

    def test_refused_file(self):
        for name in ("shares", "charges", "points"):
            self.prints("REFUSED 1 0\n", name, file=b"")
            self.prints("REFUSED 2 15\n", name, file=SMALL + b"\x00\x00\x00")

    def test_rates(self):
        for word, rate in (("0", "0"), ("000", "0"), ("0100000000", "100000000"), ("7", "7")):
            self.prints(f"DAY 1 RATE {rate}\n", "charges", [word], SMALL)

    def test_refused_rates(self):
        refused = ("", "-1", "+1", " 1", "1 ", "1_0", "1.0", "1e3", "x", "٣", "100000001", "9" * 5_000)
        for word in refused:
            self.prints("REFUSED 3 0\n", "charges", [word], SMALL)
        self.prints("REFUSED 3 0\n", "charges", ["1", "2"])
        self.prints("REFUSED 3 0\n", "charges", ["x"], b"")

    def test_full_day(self):
        file = write_day(full_day())
        self.assertEqual(1 + 64, listing("shares", [], file).count("\n"))
        self.assertEqual(1 + 64, listing("charges", ["100000000"], file).count("\n"))
        self.assertEqual(1 + 32 + 512, listing("points", [], file).count("\n"))


class CommandLine(unittest.TestCase):
    def run_program(self, *words, file=FILE):
        return subprocess.run(
            [sys.executable, str(PROGRAM), *words], input=file, capture_output=True, check=False
        )

    def test_prints_the_listing(self):
        for words in (["shares"], ["charges"], ["charges", "5"], ["points"]):
            done = self.run_program(*words)
            self.assertEqual(listing(words[0], words[1:], FILE).encode(), done.stdout)
            self.assertEqual(0, done.returncode)

    def test_prints_a_refusal(self):
        self.assertEqual(b"REFUSED 1 0\n", self.run_program("points", file=b"").stdout)

    def test_other_words(self):
        for words in ([], ["share"], ["shares", "5"]):
            done = self.run_program(*words)
            self.assertEqual((b"", 1), (done.stdout, done.returncode))
