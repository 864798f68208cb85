"""Cases of an hour at a point and of system use gas."""

from bounds import ACCUMULATED_IMBALANCE, GIGAJOULES, MEGAJOULES, SYSTEM_USE, up_to
from cases import (
    Figure,
    Room,
    Routine,
    Rows,
    signed,
    some,
    some_bound,
    some_room,
    some_rows,
    wide,
)
from pointshares import hour_at_point
from usegas import NO_FOUNDATION_SHIPPER, general_gas, heater_gas, imbalance_fuel


def answer_hour(capacity, room, entitlements, mdqs):
    shares = hour_at_point(capacity, entitlements, mdqs, room)
    return [sum(shares)], [shares]


def some_hour(chance, rows):
    bound = some_bound(chance, MEGAJOULES)
    entitlements = some_rows(chance, bound, rows)
    mdqs = some_rows(chance, some_bound(chance, GIGAJOULES), rows)
    total = min(sum(entitlements), MEGAJOULES[-1])
    capacity = chance.choice((total, some(chance, up_to(total)), some(chance, MEGAJOULES)))
    return [capacity, some_room(chance, rows), entitlements, mdqs]


def answer_general(sug, fssug, foundation, room, schedules):
    shares = general_gas(sug, fssug, foundation, schedules, room)
    return [sum(shares)], [shares]


def some_general(chance, rows):
    sug = some(chance, SYSTEM_USE)
    fssug = some(chance, up_to(sug))
    foundation = chance.choice((NO_FOUNDATION_SHIPPER, *range(rows)))
    schedules = some_rows(chance, some_bound(chance, GIGAJOULES), rows)
    return [sug, fssug, foundation, some_room(chance, rows), schedules]


def answer_heater(gas, room, schedules):
    shares = heater_gas(gas, schedules, room)
    return [sum(shares)], [shares]


def some_heater(chance, rows):
    schedules = some_rows(chance, some_bound(chance, GIGAJOULES), rows)
    return [some(chance, SYSTEM_USE), some_room(chance, rows), schedules]


def answer_fuel(start, end, mdq):
    return [imbalance_fuel(start, end, mdq)], []


def some_fuel(chance, _):
    """Imbalances about where the fuel begins, or anywhere."""
    mdq = some(chance, GIGAJOULES)
    edge = min(80 * mdq + chance.randint(-1, 1_000), ACCUMULATED_IMBALANCE[-1])
    start, end = (
        chance.choice((edge, chance.choice(ACCUMULATED_IMBALANCE))) for _ in range(2)
    )
    return [start, end, mdq]


ROUTINES = (
    Routine(
        "share_hour",
        (Figure(MEGAJOULES, wide), Room(), Rows(MEGAJOULES, wide), Rows(GIGAJOULES)),
        answer_hour,
        some_hour,
        (
            (9_000, 2, [4_000, 2_000], [300, 100]),
            (5_000, 2, [4_000, 2_000], [300, 100]),
            # H equals TRE with TMDQ zero, and is one above it
            (6_000, 2, [4_000, 2_000], [0, 0]),
            (6_001, 2, [4_000, 2_000], [0, 0]),
            (6_001, 1, [4_000, 2_000], [0, 0]),
            (6_001, 2, [4_000, 2_000], [0, 1]),
            (6_001, 1, [4_000], [0]),
            (MEGAJOULES[-1], 64, [0] * 64, [GIGAJOULES[-1]] * 64),
            (MEGAJOULES[-1], 65, [MEGAJOULES[-1]] * 64, [GIGAJOULES[-1]] * 64),
        ),
    ),
    Routine(
        "share_general",
        (
            *[Figure(SYSTEM_USE, wide)] * 2,
            Figure(up_to(NO_FOUNDATION_SHIPPER), wide),
            Room(),
            Rows(GIGAJOULES),
        ),
        answer_general,
        some_general,
        (
            (1_000, 100, 1, 3, [10, 20, 30]),
            (1_000, 1_000, 1, 3, [0, 20, 0]),
            (1_000, 1_001, 1, 3, [0, 20, 0]),
            (1_000, 1_001, 1, 2, [0, 20, 0]),
            (1_000, 999, 1, 3, [0, 20, 0]),
            (1_000, 999, 1, 2, [0, 20, 0]),
            (1_000, 0, 255, 0, []),
            (0, 0, 255, 0, []),
            (1_000, 0, 3, 3, [10, 20, 30]),
            (1_000, 0, 254, 3, [10, 20, 30]),
            (1_000, 0, 256, 3, [10, 20, 30]),
            (SYSTEM_USE[-1], 0, 63, 64, [GIGAJOULES[-1]] * 64),
        ),
    ),
    Routine(
        "share_heater",
        (Figure(SYSTEM_USE, wide), Room(), Rows(GIGAJOULES)),
        answer_heater,
        some_heater,
        (
            (1_000, 3, [10, 20, 30]),
            (1, 2, [0, 0]),
            (1, 1, [0, 0]),
            (0, 2, [0, 0]),
            (SYSTEM_USE[-1], 64, [GIGAJOULES[-1]] * 64),
        ),
    ),
    Routine(
        "imbalance_fuel",
        (*[Figure(ACCUMULATED_IMBALANCE, signed)] * 2, Figure(GIGAJOULES)),
        answer_fuel,
        some_fuel,
        (
            (80_000, 0, 1_000),
            (0, 80_099, 1_000),
            (80_100, 80_099, 1_000),
            (-80_100, -1, 0),
            (-1, 100, 0),
        ),
    ),
)
