"""Cases of a sharing round and of a day's shares."""

from bounds import GIGAJOULES, ROUND_CAPACITY, up_to
from cases import Figure, Room, Routine, Rows, some, some_bound, some_room, some_rows
from dayshares import share_day
from rounds import one_round


def answer_round(capacity, room, weights, needs):
    held = one_round(capacity, weights, needs, room)
    return [held.level, sum(held.shares)], [held.shares]


def some_round(chance, rows):
    bound = some_bound(chance, GIGAJOULES)
    weights, needs = some_rows(chance, bound, rows), some_rows(chance, bound, rows)
    capacity = some(chance, up_to(min(sum(needs), ROUND_CAPACITY[-1])))
    return [capacity, some_room(chance, rows), weights, needs]


def answer_day(free_flow, compressor, *rooms_and_lists):
    rooms, lists = rooms_and_lists[:3], rooms_and_lists[3:]
    day = share_day(free_flow, compressor, *lists, rooms=rooms)
    return [*day.levels, *day.totals, day.left], [day.firm, day.auction, day.lower_tier]


def below(chance, bound, mdqs):
    """Schedules that ask nothing of a zero MDQ."""
    return [some(chance, bound) if mdq > 0 else 0 for mdq in mdqs]


def some_capacity(chance, *classes):
    """Enough for some of the classes, and a part of what the next one asks."""
    full = chance.randint(0, len(classes))
    asked = [sum(schedules) for schedules in classes]
    part = some(chance, up_to(asked[full])) if full < len(classes) else chance.randint(0, 9)
    return min(sum(asked[:full]) + part, 2 * GIGAJOULES[-1])


def some_day(chance, rows):
    bound = some_bound(chance, GIGAJOULES)
    firm_mdqs, auction_mdqs = some_rows(chance, bound, rows), some_rows(chance, bound, rows)
    firm, auction = below(chance, bound, firm_mdqs), below(chance, bound, auction_mdqs)
    lower_tier = some_rows(chance, bound, rows)
    capacity = some_capacity(chance, firm, auction, lower_tier)
    free_flow = chance.randint(
        max(capacity - GIGAJOULES[-1], 0), min(capacity, GIGAJOULES[-1])
    )
    rooms = [some_room(chance, rows) for _ in range(3)]
    lists = [firm_mdqs, auction_mdqs, firm, auction, lower_tier]
    return [free_flow, capacity - free_flow, *rooms, *lists]


GREATEST = GIGAJOULES[-1]
FULL = [[GREATEST] * 64] * 5

ROUTINES = (
    Routine(
        "share_round",
        (Figure(ROUND_CAPACITY), Room(), Rows(GIGAJOULES), Rows(GIGAJOULES)),
        answer_round,
        some_round,
        (
            (300, 2, [300, 150], [400, 60]),
            (ROUND_CAPACITY[-1], 64, [GREATEST] * 64, [GREATEST] * 64),
            (0, 3, [1, 0, GREATEST], [GREATEST, 1, 1]),
        ),
    ),
    Routine(
        "share_day",
        (*[Figure(GIGAJOULES)] * 2, *[Room()] * 3, *[Rows(GIGAJOULES)] * 5),
        answer_day,
        some_day,
        (
            (300, 100, 2, 2, 2, [400, 200], [0, 0], [400, 60], [0, 0], [0, 0]),
            (10, 0, 3, 3, 3, [4, 4, 4], [0, 0, 0], [4, 4, 4], [0, 0, 0], [0, 0, 0]),
            (300, 100, 2, 2, 2, [400, 0], [100, 300], [100, 0], [200, 300], [0, 0]),
            # round three shares what both rounds left
            (10, 0, 1, 1, 1, [1], [0], [1], [0], [0]),
            (10, 5, 3, 3, 3, [9, 5, 3], [0, 0, 0], [9, 9, 9], [0, 0, 0], [0, 0, 0]),
            # a firm and an auction schedule without their MDQ: the firm row first
            (300, 100, 2, 2, 2, [400, 0], [0, 300], [100, 1], [1, 300], [0, 0]),
            (300, 100, 2, 2, 2, [400, 0], [300, 0], [100, 0], [200, 1], [0, 0]),
            (GREATEST, GREATEST, 64, 65, 64, *FULL),
            (GREATEST, GREATEST, 64, 64, 63, *FULL),
        ),
    ),
)
