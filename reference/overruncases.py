"""Cases of the overruns of a day. A side's figures stand together, receipt first: schedules,
forward and backhaul, and the backhaul metered. Hours excused come last."""

from bounds import BACKHAUL_METERED, GIGAJOULES, MEGAJOULES, up_to
from cases import Figure, Hours, Routine, Rows, put, some, some_bound, wide
from overruns import (
    TODAY,
    YESTERDAY,
    BackhaulMetered,
    Excused,
    Schedules,
    Sides,
    daily_overruns,
    day_overruns,
    hourly_overrun,
    twelve_hourly_overrun,
)

SIDE = (*[Figure(GIGAJOULES)] * 2, Figure(BACKHAUL_METERED, wide))
BOTH_ROWS = (Hours(MEGAJOULES), Hours(MEGAJOULES))


def some_hours(chance, m, count):
    """Hours about the limits, or anywhere."""
    edge = min(50 * m + 1, MEGAJOULES[-1])
    return [
        chance.choice((44 * edge // 50, edge, some(chance, up_to(edge)), some(chance, MEGAJOULES)))
        for _ in range(count)
    ]


def some_excused(chance, hours):
    """At most what was metered, and now and then one more in an hour."""
    excused = [some(chance, up_to(hour)) for hour in hours]
    place = chance.randrange(len(hours))
    return put(excused, place, hours[place] + chance.choice((*[0] * 7, 1)))


def some_mdqs(chance):
    bound = some_bound(chance, GIGAJOULES)
    return some(chance, bound), some(chance, bound)


def some_side(chance):
    bound = some_bound(chance, GIGAJOULES)
    return [some(chance, bound), some(chance, bound), some(chance, BACKHAUL_METERED)]


def figures_of(receipt, delivery):
    """The second program's forms of both sides' single figures."""
    schedules = Schedules(receipt[0], delivery[0], receipt[1], delivery[1])
    return schedules, BackhaulMetered(receipt[2], delivery[2])


def answer_hourly(m, *rows):
    return [hourly_overrun(m, Sides(*rows[:2]), Sides(*rows[2:]))], []


def some_hourly(chance, _):
    _, m = some_mdqs(chance)
    rows = [some_hours(chance, m, TODAY) for _ in range(2)]
    return [m, *rows, *(some_excused(chance, row) for row in rows)]


def answer_twelve_hourly(*arguments):
    return [twelve_hourly_overrun(*arguments)], []


def some_twelve_hourly(chance, _):
    p, m = some_mdqs(chance)
    hours = some_hours(chance, m, YESTERDAY + TODAY)
    return [p, m, hours, some_excused(chance, hours)]


def answer_daily(*arguments):
    *single, delivered, received = arguments
    schedules, metered = figures_of(single[:3], single[3:])
    return [*daily_overruns(Sides(delivered, received), metered, schedules)], []


def some_daily(chance, _):
    rows = [some_hours(chance, some(chance, GIGAJOULES), TODAY) for _ in range(2)]
    return [*some_side(chance), *some_side(chance), *rows]


def answer_day(p, m, *arguments):
    single, (yesterday, delivered, received, *excused) = arguments[:6], arguments[6:]
    schedules, metered = figures_of(single[:3], single[3:])
    sides = Sides(delivered, received)
    return [*day_overruns(p, m, yesterday, sides, schedules, metered, Excused(*excused))], []


def some_day(chance, _):
    p, m = some_mdqs(chance)
    hours = [some_hours(chance, m, count) for count in (YESTERDAY, TODAY, TODAY)]
    excused = [some_excused(chance, row) for row in hours]
    return [p, m, *some_side(chance), *some_side(chance), *hours, *excused]


def hours_of(count, figure, place=None, other=0):
    """One figure in every hour, but for one hour of another."""
    return [other if hour == place else figure for hour in range(count)]


GREATEST = GIGAJOULES[-1]
BEYOND = MEGAJOULES[-1] + 1
NO_SIDE = (0, 0, 0)
MOST_SIDE = (0, 0, BACKHAUL_METERED[-1])
NONE, MOST = hours_of(TODAY, 0), hours_of(TODAY, MEGAJOULES[-1])
NO_YESTERDAY = hours_of(YESTERDAY, 0)
BOTH_DAYS = YESTERDAY + TODAY
NO_DAYS = hours_of(BOTH_DAYS, 0)

# 48,000 in each of the 35 hours, and nothing received.
STEADY = (hours_of(YESTERDAY, 48_000), hours_of(TODAY, 48_000), NONE)
STEADY_DAY = (1_000, 1_000, *NO_SIDE, 1_152, 0, 0, *STEADY)
NOTHING = (NO_YESTERDAY, NONE, NONE)


def excused_in(hour, figure):
    """The figure excused in one delivered hour of today."""
    return (NO_YESTERDAY, hours_of(TODAY, 0, hour, figure), NONE)


ROUTINES = (
    Routine(
        "hourly_overrun",
        (Figure(GIGAJOULES), *BOTH_ROWS, *BOTH_ROWS),
        answer_hourly,
        some_hourly,
        (
            (1_000, hours_of(TODAY, 0, 7, 50_000), NONE, NONE, NONE),
            (1_000, hours_of(TODAY, 0, 7, 50_001), NONE, NONE, NONE),
            # in each hour the greater of the two excesses
            (1_000, hours_of(TODAY, 0, 0, 50_003), hours_of(TODAY, 44_002, 0, 44_001), NONE, NONE),
            (0, MOST, MOST, NONE, NONE),
            (GREATEST, MOST, MOST, NONE, NONE),
            # each side's own hours excused, all of them, and one more than all
            (1_000, hours_of(TODAY, 50_001), hours_of(TODAY, 44_002), *[hours_of(TODAY, 1)] * 2),
            (0, MOST, MOST, MOST, MOST),
            (0, hours_of(TODAY, 5), hours_of(TODAY, 7), hours_of(TODAY, 5, 23, 6), NONE),
            (0, hours_of(TODAY, 5), hours_of(TODAY, 7), NONE, hours_of(TODAY, 7, 0, 8)),
            (0, hours_of(TODAY, 5), hours_of(TODAY, 7), *[hours_of(TODAY, 7)] * 2),
            # the metered hour's bound comes first
            (0, NONE, hours_of(TODAY, 0, 9, BEYOND), hours_of(TODAY, 1), NONE),
        ),
    ),
    Routine(
        "twelve_hourly_overrun",
        (*[Figure(GIGAJOULES)] * 2, *[Rows(MEGAJOULES, wide)] * 2),
        answer_twelve_hourly,
        some_twelve_hourly,
        (
            (1_000, 1_000, hours_of(BOTH_DAYS, 48_000), NO_DAYS),
            (1_000, 2_000, hours_of(BOTH_DAYS, 100_000), NO_DAYS),
            # no two hours alike, so that no other may enter or leave
            (0, 0, [*range(1, 36)], NO_DAYS),
            (0, 0, [*range(1, 36)], [*range(35)]),
            # the period that ends with hour 5 begins yesterday
            (1_000, 2_000, hours_of(BOTH_DAYS, 0, 4, 799_000), NO_DAYS),
            (1_000, 2_000, hours_of(BOTH_DAYS, 0, 4, 799_001), NO_DAYS),
            (1_000, 2_000, hours_of(BOTH_DAYS, 0, 4, 799_001), hours_of(BOTH_DAYS, 0, 4, 1)),
            (0, 0, hours_of(BOTH_DAYS, MEGAJOULES[-1]), NO_DAYS),
            (0, 0, *[hours_of(BOTH_DAYS, MEGAJOULES[-1])] * 2),
            (GREATEST, GREATEST, hours_of(BOTH_DAYS, MEGAJOULES[-1]), NO_DAYS),
            (GREATEST + 1, 0, [], NO_DAYS),
            (GREATEST + 1, 0, NO_DAYS, []),
            # 1,000 excused in all hours, and in today's first alone
            (1_000, 1_000, hours_of(BOTH_DAYS, 48_000), hours_of(BOTH_DAYS, 1_000)),
            (1_000, 1_000, hours_of(BOTH_DAYS, 48_000), hours_of(BOTH_DAYS, 0, 11, 1_000)),
            (1_000, 1_000, hours_of(BOTH_DAYS, 48_000), hours_of(BOTH_DAYS, 0, 34, 48_001)),
            (0, 0, hours_of(BOTH_DAYS, 0, 34, BEYOND), hours_of(BOTH_DAYS, 1)),
        ),
    ),
    Routine(
        "daily_overruns",
        (*SIDE, *SIDE, *BOTH_ROWS),
        answer_daily,
        some_daily,
        (
            (*NO_SIDE, 1_152, 0, 0, hours_of(TODAY, 48_000), NONE),
            (*NO_SIDE, 1_000, 152, 1, hours_of(TODAY, 48_000), NONE),
            (*MOST_SIDE, *MOST_SIDE, MOST, MOST),
        ),
    ),
    Routine(
        "overruns_of_day",
        (*[Figure(GIGAJOULES)] * 2, *SIDE, *SIDE, *[Hours(MEGAJOULES), *BOTH_ROWS] * 2),
        answer_day,
        some_day,
        (
            (*STEADY_DAY, *NOTHING),
            (0, 0, *MOST_SIDE, *MOST_SIDE, hours_of(YESTERDAY, MEGAJOULES[-1]), MOST, MOST, *NOTHING),
            # 1,000 excused in all hours, and in today's first alone
            (*STEADY_DAY, hours_of(YESTERDAY, 1_000), hours_of(TODAY, 1_000), NONE),
            (*STEADY_DAY, *excused_in(0, 1_000)),
            # the daily overruns count what is excused
            (
                *(1_000, 1_000, 1_200, 0, 0, 1_200, 0, 0, NO_YESTERDAY),
                *(hours_of(TODAY, 50_001), hours_of(TODAY, 44_002)),
                *(NO_YESTERDAY, hours_of(TODAY, 1), hours_of(TODAY, 1)),
            ),
            # a whole hour, and one more: of today, of yesterday, of what was received
            (*STEADY_DAY, *excused_in(5, 48_000)),
            (*STEADY_DAY, *excused_in(5, 48_001)),
            (*STEADY_DAY, hours_of(YESTERDAY, 48_000, 10, 48_001), NONE, NONE),
            (*STEADY_DAY, NO_YESTERDAY, NONE, hours_of(TODAY, 0, 3, 1)),
            # yesterday, delivered, received, and the metered hours before all of them
            (*STEADY_DAY, hours_of(YESTERDAY, 0, 7, 48_001), hours_of(TODAY, 48_001), NONE),
            (*STEADY_DAY, NO_YESTERDAY, hours_of(TODAY, 0, 9, 48_001), hours_of(TODAY, 1)),
            (*STEADY_DAY[:-1], hours_of(TODAY, 0, 20, BEYOND), hours_of(YESTERDAY, 48_001), NONE, NONE),
        ),
    ),
)
