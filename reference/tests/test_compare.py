"""The comparison with the built programs: its files tell, and wrong stand-ins are found."""

import contextlib
import io
import pathlib
import sys
import unittest
from collections import Counter
from unittest import mock

import compare
from cormcushion import LISTINGS, listing, rate_from
from refusals import Refusal

PROGRAM = pathlib.Path(__file__).resolve().parent.parent / "cormcushion.py"
SEED = 20_190_101


def stand_in(program):
    return [sys.executable, str(PROGRAM), program]


def writing(code):
    return [sys.executable, "-c", code]


class Files(unittest.TestCase):
    @classmethod
    def setUpClass(cls):
        cls.files = [compare.made(SEED, number)[0] for number in range(600)]

    def test_same_seed_and_number(self):
        for number in range(20):
            self.assertEqual(compare.made(SEED, number), compare.made(SEED, number))

    def test_files_tell(self):
        """Every refusal of a file is met often, and sizes go from none to the greatest."""
        numbers = Counter(map(compare.refusal_of, self.files))
        self.assertEqual({None, 1, 2, 3, 4, 5}, set(numbers))
        self.assertGreater(min(numbers.values()), 20)
        self.assertLessEqual({0, 40_975}, {len(file) for file in self.files})

    def test_points_are_refused(self):
        listings = [listing("points", [], file) for file in self.files]
        self.assertGreater(sum("\nREFUSED 6 0\n" in text for text in listings), 5)

    def test_no_rates(self):
        for word in compare.NO_RATES:
            with self.assertRaises(Refusal):
                rate_from([word])


class Comparison(unittest.TestCase):
    def test_right_answers(self):
        commands = {program: stand_in(program) for program in LISTINGS}
        for number in range(8):
            self.assertEqual([], compare.compare(commands, SEED, number).differences)

    def test_wrong_answers(self):
        for code, built in (
            ("print('REFUSED 9 9')", "REFUSED 9 9\n"),
            ("pass", ""),
            ("import sys; sys.exit(3)", "(ended with 3)\n"),
        ):
            (found,) = compare.compare({"points": writing(code)}, SEED, 1).differences
            self.assertEqual(("points", built), (found.program, found.built))

    def test_no_end(self):
        with mock.patch.object(compare, "PATIENCE", 0.1):
            told = compare.printed(writing("import time; time.sleep(9)"), b"")
        self.assertEqual("(no end after 0.1 seconds)\n", told)

    def test_difference_is_told(self):
        said = io.StringIO()
        kept = mock.Mock()
        with mock.patch.object(compare, "KEPT", kept), contextlib.redirect_stdout(said):
            same = compare.compare_all({"shares": writing("print('DAY')")}, SEED, range(5, 7))
        self.assertFalse(same)
        kept.write_bytes.assert_called_once_with(compare.made(SEED, 5)[0])
        self.assertIn(f"seed {SEED}, file 5", said.getvalue())
        self.assertIn("--- shares prints\nDAY\n", said.getvalue())
