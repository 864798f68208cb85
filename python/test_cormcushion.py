"""The library from Python, held to the second program.

python3 python/test_cormcushion.py
"""

import doctest
import pathlib
import sys
import unittest
from array import array
from random import Random

ROOT = pathlib.Path(__file__).resolve().parent.parent

# behind: the second program has a file of the module's name
sys.path.append(str(ROOT.joinpath("reference")))

import cormcushion
import dayfile
import dayshares
import filecases
import listings
import month
import monthcases
import overruncases
import overruns
import readingcases
import readings
import refusals
import sharecases
import tariff
from answeredfiles import some_files
from bounds import DAY_NUMBER
from cases import SEED, cases_of, put


def named(routines, name):
    return next(routine for routine in routines if routine.name == name)


DAY_ROUTINE = named(sharecases.ROUTINES, "share_day")
OVERRUN_ROUTINE = named(overruncases.ROUTINES, "overruns_of_day")
MONTH_ROUTINE = named(monthcases.ROUTINES, "list_month")
READING_ROUTINE = named(readingcases.ROUTINES, "meter_day")

# What the library can be asked: numbers that fit their widths.
NARROW, WIDE = 2**32, 2**64


def answer(refusal, rule, *arguments):
    """The answer or, of a refusal, number and place."""
    try:
        return rule(*arguments)
    except refusal as refused:
        return "REFUSED", refused.number, refused.place


class Held(unittest.TestCase):
    def held(self, rule, reference, *arguments):
        """What both programs answer alike."""
        expected = answer(refusals.Refusal, reference, *arguments)
        self.assertEqual(expected, answer(cormcushion.Refusal, rule, *arguments))
        return expected


def second_share_day(*arguments):
    day = dayshares.share_day(*arguments)
    return day.firm, day.auction, day.lower_tier, day.levels, day.left


def second_overruns(p, m, yesterday, delivered, received, schedules, metered, rate, excused=None):
    refusals.require(rate <= 100_000_000, 3)
    sides = overruns.Sides(delivered, received)
    figures = overruns.Schedules(*schedules), overruns.BackhaulMetered(*metered)
    taken_off = overruns.NOTHING_EXCUSED if excused is None else overruns.Excused(*excused)
    over = overruns.day_overruns(p, m, yesterday, sides, *figures, taken_off)
    return (*over, tariff.overrun_charge(rate, over.greatest))


def second_charges(file, rate):
    refusals.require(rate <= 100_000_000, 3)
    return listings.charges_listing(file, rate)


def second_month_statement(days):
    return month.list_month([number for day in days for number in day])


def second_readings(hours):
    kinds = {tuple: lambda hour: readings.Measured(*hour), float: readings.Substituted}
    day = readings.meter_day([readings.Missing() if hour is None else kinds[type(hour)](hour) for hour in hours])
    return list(day.energies), list(day.volumes), day.energy, day.volume


def hour_of(given):
    """An hour of the second program's cases as Python's callers give it."""
    first, second = map(readingcases.number_of, given[1:])
    return {readings.MEASURED: (first, second), readings.SUBSTITUTED: first, readings.MISSING: None}[given.kind]


def lent_readings(hours):
    """What the library makes of kinds and numbers, told as a case's answer is; a refusal has to leave what is lent as it was."""
    kinds, firsts, seconds = zip(*hours)
    given = [array("B", kinds), *(array("d", map(readingcases.number_of, numbers)) for numbers in (firsts, seconds))]
    lent = [array("Q", range(24)), array("Q", range(24, 48)), array("Q", [48])]
    before = [*map(list, lent)]
    packed = cormcushion._readings(*[cormcushion._lent(figures)[0] for figures in (*given, *lent)])
    try:
        energy = cormcushion._figure(packed)
    except cormcushion.Refusal as refusal:
        zeros = [0] * 24
        kept = before == [*map(list, lent)]
        return [refusal.number, refusal.place, 0, 0, ":", *zeros, ":", *zeros] if kept else "written to"
    energies, volumes, (volume,) = lent
    return [0, 0, energy, volume, ":", *energies, ":", *volumes]


def lent_words(numbers, room):
    """What the library makes of a lent block, told as a case's answer is: refusal, size, the block whole."""
    given, lent = cormcushion._wide(numbers), array("B", [filecases.BYTES.lent] * room)
    packed = cormcushion._month_statement(*cormcushion._lent(given), *cormcushion._lent(lent))
    try:
        words = [0, 0, cormcushion._figure(packed)]
    except cormcushion.Refusal as refusal:
        words = [refusal.number, refusal.place, 0]
    return [*words, *filecases.BYTES.spell(lent)]


def some_days(chance):
    """Days of a month; at times one has another's place, or figures at fault."""
    numbers = sorted(chance.sample(DAY_NUMBER, chance.randint(1, 32)))
    days = [monthcases.some_day(chance, number) for number in numbers]
    place = chance.randrange(len(days))
    misplaced = put(days, place, chance.choice(days))
    faulty = monthcases.with_figures(days, place, chance.choice(monthcases.FAULTY))
    return chance.choice((days, misplaced, faulty))


class Readme(unittest.TestCase):
    def test_prompt(self):
        """What README.md shows at Python's prompt is what is printed there."""
        shown = doctest.testfile(str(ROOT.joinpath("README.md")), module_relative=False)
        self.assertEqual(0, shown.failed)
        self.assertLess(0, shown.attempted)


class Packed(unittest.TestCase):
    def test_a_kind_is_no_part_of_the_number(self):
        kind = 2 * 10**17
        self.assertEqual(340, cormcushion._figure(kind + 340))
        with self.assertRaises(cormcushion.Refusal) as caught:
            cormcushion._figure(kind + 5 * 10**15 + 40)
        self.assertEqual((5, 40), (caught.exception.number, caught.exception.place))


class Files(Held):
    def test_files(self):
        for file in some_files(100):
            with self.subTest(length=len(file)):
                self.held(cormcushion.shares, listings.shares_listing, file)
                self.held(cormcushion.points, listings.points_listing, file)
                for rate in (0, 359_000, 100_000_001):
                    self.held(cormcushion.charges, second_charges, file, rate)
                self.held(cormcushion.check, lambda file: len(dayfile.read_day(file).numbers), file)

    def test_examples(self):
        examples = ROOT.joinpath("examples")
        for name in ("small", "cool"):
            file = examples.joinpath(f"{name}.day").read_bytes()
            for listing in (cormcushion.shares, cormcushion.charges, cormcushion.points):
                stored = examples.joinpath(f"{name}.{listing.__name__}")
                self.assertEqual(stored.read_text(), listing(file))

    def test_refusal(self):
        with self.assertRaises(cormcushion.Refusal) as caught:
            cormcushion.shares(b"")
        self.assertEqual((1, 0), (caught.exception.number, caught.exception.place))
        self.assertEqual("refused by 1 at 0", str(caught.exception))


class Days(Held):
    def test_cases(self):
        for free_flow, compressor, _, _, _, *lists in cases_of(DAY_ROUTINE):
            self.held(cormcushion.share_day, second_share_day, free_flow, compressor, *lists)

    def test_days(self):
        chance = Random(f"{SEED} python")
        for _ in range(100):
            free_flow, compressor, _, _, _, *lists = sharecases.some_day(chance, chance.randint(0, 64))
            self.held(cormcushion.share_day, second_share_day, free_flow, compressor, *lists)

    def test_bytes_are_numbers(self):
        self.held(cormcushion.share_day, second_share_day, 10, 2, *[bytes([3, 9, 5, 7])] * 5)

    def test_a_figure_without_its_width(self):
        for figure in (-1, NARROW):
            with self.assertRaises(OverflowError):
                cormcushion.share_day(1, 1, [figure], [0], [0], [0], [0])
            with self.assertRaises(OverflowError):
                cormcushion.share_day(figure, 1, [0], [0], [0], [0], [0])


# 01's day of 288,000 megajoules.
OVER = (1_000, 1_000, [48_000] * 11, [48_000] * 24, [0] * 24, (0, 1_152, 0, 0), (0, 0))


class Meters(Held):
    def meter(self, case, rate):
        """With what the case excuses, and with nothing."""
        p, m, forward_receipt, backhaul_receipt, receipt, forward_delivery, backhaul_delivery, delivery, *hours = case
        schedules = (forward_receipt, forward_delivery, backhaul_receipt, backhaul_delivery)
        for excused in (hours[3:], None):
            figures = (p, m, *hours[:3], schedules, (receipt, delivery), rate, excused)
            self.held(cormcushion.overruns, second_overruns, *figures)

    def test_cases(self):
        for case in cases_of(OVERRUN_ROUTINE):
            for rate in (0, 359_000, 100_000_000, 100_000_001):
                self.meter(case, rate)

    def test_worked_figure(self):
        over = cormcushion.overruns(*OVER)
        self.assertEqual((0, 288_000, 0, 0, 288_000, 103_392), over)

    def excused(self, figures, *excused):
        """What both programs answer where these hours are excused."""
        return self.held(cormcushion.overruns, second_overruns, *figures, 359_000, excused)

    def test_excused_hours(self):
        none, first = [0] * 24, put([0] * 24, 0, 1_000)
        self.assertEqual((0, 288_000, 0, 0, 288_000, 103_392), self.excused(OVER, [0] * 11, none, none))
        self.assertEqual((0,) * 6, self.excused(OVER, [1_000] * 11, [1_000] * 24, none))
        self.assertEqual((0, 276_000, 0, 0, 276_000, 99_084), self.excused(OVER, [0] * 11, first, none))
        both = (1_000, 1_000, [0] * 11, [50_001] * 24, [44_002] * 24, (1_200, 1_200, 0, 0), (0, 0))
        self.assertEqual((24, 468_000, 0, 24, 468_000, 168_012), self.excused(both, [0] * 11, [1] * 24, [1] * 24))

    def test_more_excused_than_metered(self):
        none = [0] * 24
        self.assertEqual(("REFUSED", 3, 10), self.excused(OVER, put([0] * 11, 10, 48_001), none, none))
        self.assertEqual(("REFUSED", 3, 7), self.excused(OVER, [48_000] * 11, put(none, 7, 48_001), none))
        self.assertEqual(("REFUSED", 3, 0), self.excused(OVER, [0] * 11, [48_000] * 24, [1] * 24))

    def test_hours_of_another_length(self):
        self.held(cormcushion.overruns, second_overruns, 1, 1, [0] * 11, [0] * 23, [0] * 24, (0,) * 4, (0, 0), 1)
        for lengths in ((10, 24, 24), (11, 23, 24), (11, 24, 25)):
            self.assertEqual(("REFUSED", 9, 0), self.excused(OVER, *([0] * length for length in lengths)))

    def test_bytes_are_numbers(self):
        hours = bytes(range(24))
        self.held(cormcushion.overruns, second_overruns, 0, 0, hours[:11], hours, hours, (0,) * 4, (0, 0), 1)

    def test_a_figure_without_its_width(self):
        for figure in (-1, WIDE):
            with self.assertRaises(OverflowError):
                cormcushion.overruns(1, 1, [figure] * 11, [0] * 24, [0] * 24, (0,) * 4, (0, 0))
            with self.assertRaises(OverflowError):
                cormcushion.overruns(*OVER, excused=([0] * 11, [0] * 24, [figure] * 24))


class Months(Held):
    def stated(self, days):
        """What both programs make of the second one's days."""
        rows = [month.numbers_of(day) for day in days]
        return self.held(cormcushion.month_statement, second_month_statement, rows)

    def refused(self, number, place, days):
        self.assertEqual(("REFUSED", number, place), self.stated(days))

    def test_worked_figures(self):
        days = [(1, 0, 288_000, 0, 0, 288_000, 408, 0), (3, 5, 0, 7, 2, 7, 0, 362_710)]
        text = "1 0 288000 0 0 288000 408 0\n3 5 0 7 2 7 0 362710\nTOTAL 5 288000 7 2 288007 408 362710\n"
        self.assertEqual(text, self.held(cormcushion.month_statement, second_month_statement, days))

    def test_no_days(self):
        self.assertEqual("TOTAL 0 0 0 0 0 0 0\n", self.stated([]))

    def test_longest(self):
        self.assertEqual(2_916, len(self.stated(monthcases.LONGEST)))

    def test_days_of_a_month(self):
        days = [monthcases.sound_day(number) for number in range(33)]
        self.assertEqual(32, self.stated(days[:31]).count("\n"))
        self.refused(3, 31, days[:32])
        self.refused(3, 31, days)
        self.refused(3, 31, [*days[:31], days[0]])

    def test_figures_at_fault(self):
        for fault in monthcases.FAULTY:
            for place in range(3):
                self.refused(3, place, monthcases.with_figures(monthcases.THREE, place, fault))

    def test_numbers(self):
        first, last = monthcases.sound_day(0), monthcases.sound_day(NARROW - 1)
        self.assertTrue(self.stated([first, last]).startswith("0 0 0 0 0 0 0 0\n4294967295 0 "))
        for number in (NARROW, NARROW + 1, WIDE - 1):
            self.refused(3, 1, [first, monthcases.sound_day(number)])
        self.refused(5, 1, [first, first])
        self.refused(5, 2, [first, last, last])
        self.refused(5, 2, [first, last, monthcases.sound_day(7), monthcases.FAULTY[0]])

    def test_days_of_another_length(self):
        """Also where all numbers together would be whole days, or a day is at fault before."""
        for lengths in ((0,), (1,), (7,), (9,), (16,), (8, 7), (7, 9), (9, 7), (4, 4)):
            days = [[WIDE - 1] * length for length in lengths]
            refused = answer(cormcushion.Refusal, cormcushion.month_statement, days)
            self.assertEqual(("REFUSED", 9, 0), refused)

    def test_any_sequence(self):
        numbers = [1, 5, 0, 7, 2, 7, 0, 9]
        text = "1 5 0 7 2 7 0 9\nTOTAL 5 0 7 2 7 0 9\n"
        for day in (numbers, tuple(numbers), bytes(numbers), array("Q", numbers)):
            self.assertEqual(text, cormcushion.month_statement([day]))

    def test_a_number_without_its_width(self):
        for place in range(month.ROW):
            for number in (-1, WIDE):
                with self.assertRaises(OverflowError):
                    cormcushion.month_statement([put([0] * month.ROW, place, number)])
            with self.assertRaises(TypeError):
                cormcushion.month_statement([put([0] * month.ROW, place, 1.0)])

    def test_lent_blocks(self):
        """The cases' own, where 7 is refused and what is kept shows."""
        cases = filecases.cases_of(MONTH_ROUTINE)
        answers = [lent_words(*case) for case in cases]
        self.assertEqual([monthcases.words_of(MONTH_ROUTINE, case) for case in cases], answers)
        self.assertEqual({0, 3, 5, 7, 9}, {number for number, *_ in answers})

    def test_months(self):
        chance = Random(f"{SEED} months")
        answers = [self.stated(some_days(chance)) for _ in range(300)]
        refused = [told for told in answers if isinstance(told, tuple)]
        self.assertEqual({3, 5}, {number for _, number, _ in refused})
        self.assertLess(len(refused), len(answers))


class Readings(Held):
    def metered(self, hours):
        """What both programs make of a day."""
        return self.held(cormcushion.readings, second_readings, hours)

    def test_worked_figures(self):
        measured = (1_000.5, 37.9)
        energies, volumes, energy, volume = self.metered([measured, 500.75, None, *[measured] * 21])
        self.assertEqual(([37_918, 500, 500, 37_918], [1_000, 0, 0, 1_000]), (energies[:4], volumes[:4]))
        self.assertEqual((835_196, 22_000), (energy, volume))

    def test_cases(self):
        """The cases' own: kinds that no hour has, and what a refusal leaves."""
        cases = filecases.cases_of(READING_ROUTINE)
        answers = [lent_readings(*case) for case in cases]
        self.assertEqual([readingcases.words_of(READING_ROUTINE, case) for case in cases], answers)
        self.assertEqual({0, 3, 5}, {number for number, *_ in answers})

    def test_cases_as_hours(self):
        known = [hours for (hours,) in filecases.cases_of(READING_ROUTINE) if max(hour.kind for hour in hours) < 3]
        self.assertLess(200, len(known))
        for hours in known:
            self.metered([hour_of(hour) for hour in hours])

    def test_days(self):
        chance = Random(f"{SEED} readings")
        for faults in (0, 0, 1, 2) * 50:
            hours = readingcases.some_faulty_day(chance, faults)
            if max(hour.kind for hour in hours) < 3:
                self.metered([hour_of(hour) for hour in hours])

    def test_hours_of_another_number(self):
        for hours in (0, 1, 23, 25, 48):
            refused = answer(cormcushion.Refusal, cormcushion.readings, ["no reading"] * hours)
            self.assertEqual(("REFUSED", 9, 0), refused)

    def test_whole_numbers(self):
        """They are readings too, up to the greatest that a double holds."""
        self.assertEqual(cormcushion.readings([(2.0, 3.0), 7.0] * 12), cormcushion.readings([(2, 3), 7] * 12))
        for hour in (10**400, (10**400, 1)):
            with self.assertRaises(OverflowError):
                cormcushion.readings([hour] * 24)

    def test_no_reading(self):
        for hour in ("12", (1.0, None), ("1", 2.0), b"ab" * 2, object()):
            with self.assertRaises((TypeError, ValueError)):
                cormcushion.readings([hour] * 24)

    def test_straight_to_the_overruns(self):
        """Whatever was read, no hour is refused there."""
        chance = Random(f"{SEED} metered")
        days = [[hour_of(hour) for hour in readingcases.some_day(chance)] for _ in range(20)]
        greatest = [(100_000_000.9, 1.0)] * 24
        for delivered, received in zip([*days, greatest], [greatest, *days]):
            sides = [cormcushion.readings(hours).energies for hours in (delivered, received)]
            figures = (sides[1][13:], *sides, (9, 8, 7, 6), (5, 4), 359_000)
            self.assertNotEqual("REFUSED", self.held(cormcushion.overruns, second_overruns, 900, 1_000, *figures)[0])


if __name__ == "__main__":
    unittest.main()
