"""Cases of a day's readings: numbers next to whole ones and to the bounds, products that are
rounded, missing hours, faults alone and several at once."""

from fractions import Fraction
from itertools import cycle
from math import inf, ldexp, nan, nextafter
from struct import pack, unpack
from sys import float_info
from typing import Callable, NamedTuple

from bounds import MEGAJOULES
from cases import put, wide, word
from overruns import TODAY
from readings import MEASURED, MISSING, SUBSTITUTED, MeterDay, meter_day, reading_of
from refusals import Refusal


class Given(NamedTuple):
    """An hour as a caller gives it: its kind, and the bits of its two numbers."""

    kind: int
    first: int
    second: int


class GivenHours(NamedTuple):
    """Each hour's kind, then the bits of either number as two words."""

    def words(self, hours):
        return [
            part
            for kind, first, second in hours
            for part in (*word(kind), *wide(first), *wide(second))
        ]


class ReadingRoutine(NamedTuple):
    """Its name in the library; its arguments; the second program's answer, a day's figures; and its
    cases by chance."""

    name: str
    fields: tuple
    answer: Callable
    cases: Callable


ALL_ZEROS = MeterDay((0,) * TODAY, (0,) * TODAY, 0, 0)


def words_of(routine, case):
    """01's number and place, both sums, the energies and the volumes; zeros where refused."""
    try:
        refused, day = (0, 0), routine.answer(*case)
    except Refusal as refusal:
        refused, day = (refusal.number, refusal.place), ALL_ZEROS
    return [*refused, day.energy, day.volume, ":", *day.energies, ":", *day.volumes]


def bits_of(number):
    return unpack(">Q", pack(">d", number))[0]


def number_of(bits):
    return unpack(">d", pack(">Q", bits))[0]


def reading_in(hour):
    return reading_of(hour.kind, number_of(hour.first), number_of(hour.second))


def answer_meter_day(hours):
    return meter_day([*map(reading_in, hours)])


def measured(volume, heating_value):
    return Given(MEASURED, bits_of(volume), bits_of(heating_value))


def substituted(energy):
    return Given(SUBSTITUTED, bits_of(energy), 0)


UNREAD = Given(MISSING, 0, 0)

# Each kind of hour, and missing ones after either of the others.
SOUND = [
    measured(1_000.5, 37.9),
    substituted(500.75),
    UNREAD,
    measured(99.9, 40.25),
    UNREAD,
    UNREAD,
] * 4

# The first hours, a middle one and the last.
PLACES = (0, 1, 11, 23)


def days_of(hours):
    """24 hours to a day, and nothing read in what is left of the last."""
    days = [hours[at : at + TODAY] for at in range(0, len(hours), TODAY)]
    return [[*day, *[UNREAD] * (TODAY - len(day))] for day in days]


def one_a_day(hours):
    """Each in a sound day, at one of the places after another."""
    return [put(SOUND, place, hour) for place, hour in zip(cycle(PLACES), hours)]


def littered(hours):
    """What an hour's kind has no use for is no number, or is below zero."""
    return [
        Given(
            kind,
            bits_of(nan) if kind == MISSING else first,
            bits_of(-1.0) if kind in (SUBSTITUTED, MISSING) else second,
        )
        for kind, first, second in hours
    ]


MOST = MEGAJOULES[-1]
LEAST, LARGEST = nextafter(0.0, 1.0), float_info.max

# The worked figures; and the largest heating value, of no gas and of the least.
WORKED = [
    measured(3.0, 1 / 3),
    measured(49.0, 1 / 49),
    measured(3.0, 0.1),
    measured(0.1, 10.0),
    measured(1_000.5, 37.9),
    measured(-0.0, 38.0),
    measured(0.0, 1e308),
    measured(0.0, LARGEST),
    measured(LEAST, LARGEST),
]
WORKED_REFUSED = [
    measured(0.0, inf),
    measured(1e8, 1e308),
    measured(-LEAST, 1.0),
    measured(100_000_001.0, 0.0),
    measured(200_000_000.0, 0.1),
    measured(-2.0, -3.0),
]

# Below zero, and the product is not.
SIGNS_LOST = [
    measured(-0.0, -3.0),
    measured(-3.0, -0.0),
    measured(-LEAST, 0.25),
    measured(0.25, -LEAST),
    measured(-LEAST, -LEAST),
]

# In each part, and as a product.
MINUS_ZEROS = [
    substituted(-0.0),
    *(measured(-0.0, other) for other in (0.0, -0.0, 38.0, LARGEST)),
    *(measured(other, -0.0) for other in (0.0, 38.0, 1e8)),
]


def neighbours(number):
    return [nextafter(number, -inf), number, nextafter(number, inf)]


# Each power of two with its neighbours, times one and its neighbours.
POWERS = [number for power in range(27) for number in neighbours(2.0**power)]
POWER_DAYS = [
    *days_of([substituted(number) for number in POWERS]),
    *days_of([measured(1.0, number) for number in POWERS]),
    *(
        day
        for heating_value in (*neighbours(1.0), 1 / 3)
        for day in days_of([measured(number, heating_value) for number in POWERS])
    ),
]

# Below one: the least number, larger subnormal ones, the smallest normal one, powers of two.
SMALL = [
    LEAST,
    2.0**-1_023,
    nextafter(float_info.min, 0.0),
    float_info.min,
    *(2.0**-power for power in (*range(1, 15), *range(64, 1_074, 170))),
]
SMALL_HOURS = [
    *map(substituted, SMALL),
    *(measured(number, 1.0) for number in SMALL),
    *(measured(1.0, number) for number in SMALL),
    *(measured(number, number) for number in SMALL),
    *(measured(MOST, number) for number in SMALL),
    # as near to the bound as a heating value takes it
    *(measured(number, min(MOST / number, LARGEST)) for number in SMALL),
]

WITHIN = [*neighbours(1e8), 100_000_000.9, nextafter(100_000_001.0, 0.0)]
BEYOND = [
    100_000_001.0,
    nextafter(100_000_001.0, inf),
    2.0**27,
    # their lowest 32 and 64 bits would pass
    2.0**32 + 5,
    2.0**64 + 2.0**12,
    2.0**53,
    LARGEST,
]


def reaching(numbers):
    """Each as energy, as volume, as product, and as volume and product at once."""
    return [
        hour
        for number in numbers
        for hour in (
            substituted(number),
            measured(number, 0.0),
            measured(1.0, number),
            measured(number / 2, 2.0),
            measured(number, 1.0),
        )
    ]


# Hours at a bound all day, so that their sum is as great as can be.
GREATEST_DAYS = [
    [measured(1e8, 1.0)] * TODAY,
    [measured(100_000_000.9, 1.0), *[UNREAD] * 23],
    [measured(1.0, 100_000_000.9)] * TODAY,
    [substituted(100_000_000.9)] * TODAY,
]

# Halfway from a number to the power of two above it, where it is rounded up; and farther, nearer.
HALFWAY = [
    measured(2.0**power * (1 + 2.0**-bit), 1 - 2.0**-bit)
    for bit in (27, 26, 28)
    for power in range(TODAY)
]
RECIPROCALS = [measured(number, 1 / number) for number in range(1, 97)]


def rounded_up(product, volume, heating_value):
    return Fraction(volume) * Fraction(heating_value) < product == volume * heating_value


def stays_below(product, volume, heating_value):
    return volume * heating_value < product


def products(chance, wholes, kept):
    """24 hours whose product is whole but for rounding, of those that are kept."""
    hours = []
    while len(hours) < TODAY:
        product, volume = chance.choice(wholes), chance.uniform(1, 1_000)
        if kept(product, volume, product / volume):
            hours.append(measured(volume, product / volume))
    return hours


def product_days(chance):
    within = (range(1, 60), range(1, MOST + 1))
    above = (MOST + 1,)
    return [
        *(products(chance, few, kept) for few in within for kept in (rounded_up, stays_below)),
        products(chance, above, stays_below),
        *one_a_day(products(chance, above, rounded_up)[: len(PLACES)]),
    ]


# Not a number: quiet, signalling, negative, and with every bit that it can have.
NO_NUMBERS = (0x7FF8 << 48, 0x7FF0 << 48 | 1, 0xFFF8 << 48, 2**63 - 1)
AWKWARD = [*NO_NUMBERS, *map(bits_of, (inf, -inf, -LEAST, -1.0, -LARGEST, -0.0))]


def in_each_part(bits, other):
    """As volume, as heating value, as energy."""
    return [
        Given(MEASURED, bits, other),
        Given(MEASURED, other, bits),
        Given(SUBSTITUTED, bits, other),
    ]


def awkward_days(bits):
    """In each part at each of the places, beside zero and beside another number."""
    return [
        put(SOUND, place, hour)
        for place, other in zip(PLACES, cycle((0.0, 2.5)))
        for hour in in_each_part(bits, bits_of(other))
    ]


# Kinds that no hour has, of sound numbers; the lowest two bits of some would pass.
UNKNOWN = [measured(5.0, 2.0)._replace(kind=kind) for kind in (3, 4, 254, 255)]
UNKNOWN_DAYS = [
    *(put(SOUND, place, hour) for hour in UNKNOWN for place in (0, 5, 23)),
    put(SOUND, 11, Given(3, 0, 0)),
]

# A fault of the volume, of the heating value, of their product, of the energy and of the kind; and
# each before and after each.
FAULTS = [
    measured(nan, 1.0),
    measured(1.0, inf),
    measured(1e8, 1.5),
    substituted(-1.0),
    UNKNOWN[0],
]
TWO_FAULTS = [put(put(SOUND, 4, one), 9, other) for one in FAULTS for other in FAULTS]

# Hour 0 missing: alone, like all others, and before each fault.
FIRST_UNREAD = [
    put(SOUND, 0, UNREAD),
    [UNREAD] * TODAY,
    put(put(SOUND, 0, UNREAD), 1, FAULTS[0]),
    *(put(put(SOUND, 0, UNREAD), 3, fault) for fault in FAULTS),
    put(put(SOUND, 0, UNREAD), 23, FAULTS[-1]),
]

# Nothing read from an hour on, after each kind; and three runs in a day.
UNREAD_RUNS = [
    *(
        [*SOUND[: start - 1], last, *[UNREAD] * (TODAY - start)]
        for last in SOUND[:2]
        for start in (1, 2, 12, 23)
    ),
    [hour for last in (*SOUND[:2], SOUND[3]) for hour in (last, *[UNREAD] * 7)],
]


def some_number(chance):
    """Up to the bound: whole, next to a whole number, or of any size."""
    whole = float(chance.randrange(chance.choice((10, 10_000, MOST))))
    small = ldexp(chance.random(), chance.randint(-1_074, 26))
    return chance.choice((whole, *neighbours(whole + 1), chance.uniform(0, MOST), small))


def some_measured(chance):
    volume = some_number(chance)
    return measured(volume, chance.uniform(0, min(60, MOST / max(volume, 1))))


def some_hour(chance):
    some = some_measured(chance)
    return chance.choice((some, some, substituted(some_number(chance)), UNREAD))


def some_day(chance):
    return [some_measured(chance), *(some_hour(chance) for _ in range(TODAY - 1))]


def some_fault(chance):
    """One of the above, or bits that are no number or below zero."""
    no_number = 0x7FF << 52 | chance.getrandbits(52)
    below_zero = 1 << 63 | chance.randint(1, 2**63 - 1)
    bits = chance.choice((no_number, below_zero))
    return chance.choice((*FAULTS, *in_each_part(bits, bits_of(some_number(chance)))))


def some_faulty_day(chance, faults):
    day = some_day(chance)
    for place in chance.sample(range(TODAY), faults):
        day = put(day, place, some_fault(chance))
    return day


def meter_day_cases(chance):
    days = [
        *(day for hour in WORKED for day in days_of([hour])),
        *one_a_day([*WORKED_REFUSED, *SIGNS_LOST]),
        *days_of([*WORKED, *MINUS_ZEROS]),
        *POWER_DAYS,
        *days_of([*SMALL_HOURS, *HALFWAY, *RECIPROCALS]),
        *days_of(reaching(WITHIN)),
        *one_a_day(reaching(BEYOND)),
        *GREATEST_DAYS,
        *product_days(chance),
        *(day for bits in AWKWARD for day in awkward_days(bits)),
        *UNKNOWN_DAYS,
        *TWO_FAULTS,
        *FIRST_UNREAD,
        *(some_day(chance) for _ in range(16)),
        *(some_faulty_day(chance, faults) for faults in (1, 2, 3) for _ in range(6)),
    ]
    return [
        *([chance.choice((day, littered(day)))] for day in days),
        *([day] for run in UNREAD_RUNS for day in (run, littered(run))),
    ]


ROUTINES = (ReadingRoutine("meter_day", (GivenHours(),), answer_meter_day, meter_day_cases),)
