"""Cases of an hour at a point, laid as lines."""

from typing import NamedTuple

from bounds import GIGAJOULES, MEGAJOULES, up_to
from cases import Figure, wide
from dayfile import Day
from days import make_day
from entrycases import list_of
from filecases import BYTES, Bytes
from gascases import some_hour
from pointhours import hour_text, put_hour
from valuecases import InMemory, Lent, ValueRoutine

GREATEST, GREATEST_MDQ = MEGAJOULES[-1], GIGAJOULES[-1]


def answer_hour(day, capacity, at, room, part):
    block = bytes([BYTES.lent]) * room
    size, after = put_hour(day.counts, day.numbers, part, capacity, block, at)
    return [size], [after]


class Hour(NamedTuple):
    day: Day
    capacity: int
    part: bytes

    def size(self):
        return len(hour_text(self.day.counts, self.day.numbers, self.part, self.capacity))

    def laid(self, at, room):
        return [self.day, self.capacity, at, room, self.part]


def hour_of(capacity, entitlements, mdqs):
    """Shippers 1, 2 and so on, whose rows stand in another order than their entries."""
    names = range(1, len(mdqs) + 1)
    shippers = [(name, mdq, 7, 8, 9, 10) for name, mdq in zip(names, mdqs)]
    entries = [(1, 9, name, own) for name, own in zip(names, entitlements)]
    return Hour(make_day(shippers=shippers[::-1]), capacity, list_of(entries))


# 01's figures.
SHARED = hour_of(9_000, [4_000, 2_000], [300, 100])
SHORT = hour_of(5_000, [4_000, 2_000], [300, 100])

# Two without MDQs, where H is one above TRE (6).
REFUSED = hour_of(6_001, [4_000, 2_000], [0, 0])

# No shipper and one; two without MDQs, where H equals TRE; and as many as there may be.
FEW_AND_MANY = [
    hour_of(8, [], []),
    hour_of(77, [5], [0]),
    hour_of(6_000, [4_000, 2_000], [0, 0]),
    hour_of(GREATEST, [1] * 64, [GREATEST_MDQ] * 64),
    hour_of(GREATEST, [1] * 65, [GREATEST_MDQ] * 65),
    SHARED._replace(part=list_of([(0, 2, 1, 5)] * 513)),
]

# Figures at their bounds and beyond them, alone and two at once.
BOUNDS = [
    *(hour_of(capacity, [1, 2], [3, 4]) for capacity in (GREATEST, GREATEST + 1, 2**32, 2**64 - 1)),
    *(hour_of(5, [1, own], [3, 4]) for own in (GREATEST, GREATEST + 1, 2**32 - 1)),
    *(hour_of(5, [1, 2], [3, mdq]) for mdq in (GREATEST_MDQ, GREATEST_MDQ + 1)),
    *(hour_of(5, [1, 2], [3, mdq]) for mdq in (2**32, 2**32 + 1, 2**64 - 1)),
    hour_of(5, [1, GREATEST + 1], [GREATEST_MDQ + 1, 4]),
    hour_of(GREATEST + 1, [1, GREATEST + 1], [3, 4]),
]


def other_parts():
    """Bytes that are no whole field; headers, sides and points, which are not looked at; and one
    shipper twice."""
    part = SHARED.part
    first, second = part[:12], part[12:]
    parts = [
        *(part[:end] for end in (1, 11, 12, 23)),
        part + b"\x04\x00\x09",
        b"\xff\x00\x00" + part[3:],
        list_of([(0, 3, 2, 4_000), (1, 5, 1, 2_000)]),
        first + first,
        second + first,
    ]
    return [SHARED._replace(part=other) for other in parts]


def other_days():
    """Counts and a list that are not as they should be, which is not tested; and a list that ends
    before its last MDQ."""
    day = SHARED.day
    days = [
        day._replace(counts=day.counts._replace(points=33)),
        day._replace(counts=day.counts._replace(meters=2**32 - 1)),
        day._replace(numbers=[*day.numbers, 5]),
        day._replace(numbers=day.numbers[:7]),
    ]
    return [SHARED._replace(day=other) for other in days]


def hour_cases(chance):
    hours = [SHORT, *FEW_AND_MANY, *BOUNDS, *other_parts(), *other_days()]
    given = [some_hour(chance, rows) for rows in (1, 2, 2, 2, 3, 3, 4, 5, 8, 20)]
    some = [hour_of(capacity, *lists) for capacity, _, *lists in given]
    return [
        *(hour.laid(0, hour.size() + 1) for hour in hours),
        *(
            hour.laid(at, at + room)
            for hour in (SHARED, REFUSED)
            for at in (0, 3)
            for room in (0, hour.size() - 1, hour.size(), hour.size() + 1)
        ),
        *(hour.laid(at, 20) for hour in (SHORT, REFUSED) for at in (19, 21, 2**32, 2**64 - 1)),
        *(hour.laid(2, hour.size() + chance.randint(1, 3)) for hour in some),
    ]


ANY = Figure(up_to(2**64 - 1), wide)

ROUTINES = (
    ValueRoutine(
        "put_hour", (InMemory(), ANY, ANY, Lent(BYTES), Bytes()), answer_hour, hour_cases
    ),
)
