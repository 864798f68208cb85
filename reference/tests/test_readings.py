"""A day's readings: worked figures, missing hours, refusals, bounds, and laws by random trial."""

import random
import unittest
from fractions import Fraction
from math import inf, nan, nextafter
from sys import float_info

from readingcases import (
    AWKWARD,
    Given,
    answer_meter_day,
    bits_of,
    products,
    reading_in,
    rounded_up,
    some_day,
    some_faulty_day,
    some_measured,
    some_number,
    stays_below,
)
from readings import MEASURED, MISSING, Measured, Missing, Substituted, meter_day, reading_of
from refusals import Refusal
from support import RuleTest

MOST = 100_000_000
LEAST, LARGEST = 5e-324, float_info.max

# An hour's volume, its heating value and its energy.
FIGURES = (
    (3.0, 1 / 3, 1),
    (49.0, 1 / 49, 0),
    (3.0, 0.1, 0),
    (0.1, 10.0, 1),
    (1_000.5, 37.9, 37_918),
    (-0.0, 38.0, 0),
    (0.0, 1e308, 0),
    (0.0, LARGEST, 0),
    (LEAST, LARGEST, 0),
    (2.0**-1_023, LARGEST, 1),
    (float_info.min, LARGEST, 3),
    (1e-200, 1e-200, 0),
)

# Beyond their bounds, or no number, or below zero.
FAULTY_ENERGIES = (100_000_001.0, 2.0**32, 2.0**64, LARGEST, inf, -inf, nan, -nan, -LEAST, -1.0)
FAULTY_PAIRS = (
    (0.0, inf),
    (1e8, 1e308),
    (-LEAST, 1.0),
    (100_000_001.0, 0.0),
    (200_000_000.0, 0.1),
    (-2.0, -3.0),
    (-0.0, -3.0),
    (-3.0, -0.0),
    (0.5, -LEAST),
    (1e8, 1.00000001),
    (LEAST, nan),
    (nan, 0.0),
    (inf, 0.0),
)
FAULTY = [*map(Substituted, FAULTY_ENERGIES), *(Measured(*pair) for pair in FAULTY_PAIRS)]

SOUND = [Measured(1_000.5, 37.9), Substituted(500.75), Missing(), Measured(2.9, 10.0)] * 6


def figures_of(reading):
    """An hour's energy and volume, as those of a day's first."""
    day = meter_day([reading, *[Missing()] * 23])
    return day.energies[0], day.volumes[0]


def with_readings(places):
    """A sound day with other readings in their places."""
    return [places.get(hour, reading) for hour, reading in enumerate(SOUND)]


class Worked(RuleTest):
    def test_products(self):
        for volume, heating_value, energy in FIGURES:
            self.assertEqual((energy, int(volume)), figures_of(Measured(volume, heating_value)))

    def test_substituted(self):
        for energy, whole in ((0.0, 0), (LEAST, 0), (0.999, 0), (1.0, 1), (37_918.95, 37_918)):
            self.assertEqual((whole, 0), figures_of(Substituted(energy)))

    def test_minus_zero(self):
        """As volume, as heating value, as energy and as product."""
        self.assertEqual((0, 0), figures_of(Measured(-0.0, 38.0)))
        self.assertEqual((0, 38), figures_of(Measured(38.0, -0.0)))
        self.assertEqual((0, 0), figures_of(Substituted(-0.0)))
        self.assertEqual((0, 0), figures_of(Measured(-0.0, -0.0)))
        self.assertEqual(bits_of(-0.0), bits_of(38.0 * -0.0))

    def test_day(self):
        energies, volumes, energy, volume = meter_day(SOUND)
        self.assertEqual((37_918, 500, 500, 29) * 6, energies)
        self.assertEqual((1_000, 0, 0, 2) * 6, volumes)
        self.assertEqual((6 * 38_947, 6 * 1_002), (energy, volume))

    def test_halfway(self):
        """The exact product is below a whole number by a bit, by half a bit and by less."""
        for power in range(26):
            for bit, below in ((26, 1), (27, 0), (28, 0)):
                volume = 2.0**power * (1 + 2.0**-bit)
                found, _ = figures_of(Measured(volume, 1 - 2.0**-bit))
                self.assertEqual(2**power - below, found)


class Unread(RuleTest):
    def test_hour_before(self):
        """Both its figures, however many hours are missing."""
        for reading, figures in ((Measured(5.9, 2.0), (11, 5)), (Substituted(7.9), (7, 0))):
            day = meter_day([*SOUND[:2], reading, *[Missing()] * 21])
            self.assertEqual([(37_918, 1_000), (500, 0)], [*zip(day.energies, day.volumes)][:2])
            self.assertEqual([figures] * 22, [*zip(day.energies, day.volumes)][2:])
            self.assertEqual(38_418 + 22 * figures[0], day.energy)
            self.assertEqual(1_000 + 22 * figures[1], day.volume)

    def test_hour_0(self):
        self.refused(5, 0, meter_day, [Missing()] * 24)
        self.refused(5, 0, meter_day, with_readings({0: Missing()}))


class Refused(RuleTest):
    def test_every_fault_at_every_hour(self):
        for reading in FAULTY:
            for hour in range(24):
                self.refused(3, hour, meter_day, with_readings({hour: reading}))

    def test_earliest_hour(self):
        for one in FAULTY:
            for other in FAULTY:
                self.refused(3, 7, meter_day, with_readings({20: one, 7: other}))
            self.refused(3, 2, meter_day, with_readings({2: one, 3: Missing(), 23: one}))

    def test_5_before_3(self):
        """It is no order of numbers: hour 0 comes first."""
        for reading in FAULTY:
            for hour in (1, 3, 23):
                self.refused(5, 0, meter_day, with_readings({0: Missing(), hour: reading}))
            self.refused(3, 0, meter_day, with_readings({0: reading, 1: Missing()}))

    def test_hours(self):
        for hours in (0, 23, 25):
            self.refused(9, 0, meter_day, [Missing()] * hours)


class Bounds(RuleTest):
    def test_edges(self):
        about = (nextafter(1e8, 0), 1e8, nextafter(1e8, inf))
        for edge in (*about, 100_000_000.9, nextafter(100_000_001.0, 0)):
            whole = int(edge)
            self.assertEqual((whole, 0), figures_of(Substituted(edge)))
            self.assertEqual((0, whole), figures_of(Measured(edge, 0.0)))
            self.assertEqual((whole, whole), figures_of(Measured(edge, 1.0)))
            self.assertEqual((whole, 1), figures_of(Measured(1.0, edge)))
            self.assertEqual((whole, whole // 2), figures_of(Measured(edge / 2, 2.0)))

    def test_one_beyond(self):
        for beyond in (100_000_001.0, nextafter(100_000_001.0, inf)):
            for reading in (
                Substituted(beyond),
                Measured(beyond, 0.0),
                Measured(1.0, beyond),
                Measured(beyond / 2, 2.0),
            ):
                self.refused(3, 0, figures_of, reading)

    def test_rounded_to_the_bound(self):
        """A product below 100,000,001 that is rounded to it is beyond."""
        chance = random.Random(20_190_101)
        for hour in products(chance, (MOST + 1,), rounded_up):
            self.refused(3, 0, figures_of, reading_in(hour))
        for hour in products(chance, (MOST + 1,), stays_below):
            self.assertEqual(MOST, figures_of(reading_in(hour))[0])

    def test_sums(self):
        day = meter_day([Measured(100_000_000.9, 1.0)] * 24)
        self.assertEqual((2_400_000_000, 2_400_000_000), (day.energy, day.volume))


class Kinds(RuleTest):
    def test_kinds(self):
        self.assertEqual(Measured(3.0, 0.1), reading_of(0, 3.0, 0.1))
        self.assertEqual(Substituted(3.0), reading_of(1, 3.0, nan))
        self.assertIsInstance(reading_of(2, nan, -1.0), Missing)

    def test_other_kinds(self):
        """3 at the hour, but after an earlier fault."""
        for kind in (3, 4, 5, 6, 128, 255):
            unknown = reading_of(kind, 3.0, 0.1)
            for hour in (0, 5, 23):
                self.refused(3, hour, meter_day, with_readings({hour: unknown}))
            self.refused(5, 0, meter_day, with_readings({0: Missing(), 1: unknown}))
            self.refused(3, 4, meter_day, with_readings({4: unknown, 9: Substituted(nan)}))
            self.refused(3, 4, meter_day, with_readings({4: Substituted(nan), 9: unknown}))


def is_sound(bits):
    """Minus zero, or a number without a sign and not at the end of the exponents."""
    return bits == 1 << 63 or bits < 0x7FF << 52


def parts(bits):
    """How often, and which power of two; a sign can only be that of minus zero."""
    exponent, fraction = divmod(bits % 2**63, 2**52)
    return (fraction + 2**52, exponent - 1_075) if exponent else (fraction, -1_074)


def whole_part(often, power):
    return often << power if power >= 0 else often >> -power


def rounded(often, power):
    """To 53 bits and no power below the least: to the nearest, of two as near to the even one."""
    lost = max(often.bit_length() - 53, -1_074 - power, 0)
    kept, rest = divmod(often, 2**lost)
    return kept + ((2 * rest, kept % 2) > (2**lost, 0)), power + lost


def figures_by_bits(first, second):
    """A measured hour's figures worked out from the bits alone, None where one is at fault."""
    if not (is_sound(first) and is_sound(second)):
        return None
    (often, power), (other_often, other_power) = parts(first), parts(second)
    energy = whole_part(*rounded(often * other_often, power + other_power))
    volume = whole_part(often, power)
    return (energy, volume) if max(energy, volume) <= MOST else None


class Laws(unittest.TestCase):
    def setUp(self):
        self.chance = random.Random(20_190_101)

    def some_bits(self):
        """Of a number within the bound, of one near the bound or awkward, or any."""
        near = bits_of(1e8) + self.chance.randint(-(2**28), 2**28)
        others = (near, self.chance.choice(AWKWARD), self.chance.getrandbits(64))
        within = bits_of(some_number(self.chance))
        return self.chance.choice((within, within, within, *others))

    def sound_hours(self):
        """Measured, some of them with products next to a whole number."""
        yield from (some_measured(self.chance) for _ in range(1_000))
        for most in (1, 60, MOST):
            for kept in (rounded_up, stays_below):
                yield from products(self.chance, range(1, most + 1), kept)

    def test_bits(self):
        any_bits = [(self.some_bits(), self.some_bits()) for _ in range(4_000)]
        accepted = refused = 0
        for hour in (*self.sound_hours(), *(Given(MEASURED, *bits) for bits in any_bits)):
            expected = figures_by_bits(hour.first, hour.second)
            try:
                self.assertEqual(expected, figures_of(reading_in(hour)), hour)
                accepted += 1
            except Refusal as refusal:
                self.assertEqual((3, 0, None), (refusal.number, refusal.place, expected), hour)
                refused += 1
        self.assertGreater(min(accepted, refused), 1_000)

    def test_exact_product(self):
        """An energy is above the exact product by no more than it was rounded, and else below it by
        less than one."""
        above = 0
        for hour in self.sound_hours():
            volume, heating_value = reading_in(hour)
            exact = Fraction(volume) * Fraction(heating_value)
            energy, _ = figures_of(Measured(volume, heating_value))
            self.assertTrue(energy - exact <= exact / 2**53 and exact < energy + 1)
            above += energy > exact
        self.assertGreater(above, 24)

    def test_rising(self):
        """More gas or more heat never has less energy."""
        for hour in self.sound_hours():
            volume, heating_value = reading_in(hour)
            part = self.chance.random()
            most = figures_of(Measured(volume, heating_value))
            for less in (volume * part, nextafter(volume, 0)):
                energy, cubic_metres = figures_of(Measured(less, heating_value))
                self.assertTrue(energy <= most[0] and cubic_metres <= most[1])
            for less in (heating_value * part, nextafter(heating_value, 0)):
                energy, cubic_metres = figures_of(Measured(volume, less))
                self.assertTrue(energy <= most[0] and cubic_metres == most[1])

    def test_a_day_is_its_hours(self):
        for _ in range(200):
            hours = some_day(self.chance)
            day = answer_meter_day(hours)
            before = None
            for hour, *found in zip(hours, day.energies, day.volumes):
                before = before if hour.kind == MISSING else figures_of(reading_in(hour))
                self.assertEqual(before, tuple(found))
                self.assertTrue(0 <= min(found) and max(found) <= MOST)
            self.assertEqual((sum(day.energies), sum(day.volumes)), (day.energy, day.volume))

    def test_a_day_is_refused_at_its_first_fault(self):
        for faults in (1, 2, 3, 24):
            for _ in range(100):
                hours = some_faulty_day(self.chance, faults)
                with self.assertRaises(Refusal) as caught:
                    answer_meter_day(hours)
                place = caught.exception.place
                for hour in hours[:place]:
                    self.assertTrue(hour.kind == MISSING or figures_of(reading_in(hour)))
                with self.assertRaises(Refusal) as first:
                    figures_of(reading_in(hours[place]))
                self.assertEqual((3, 3), (first.exception.number, caught.exception.number))
