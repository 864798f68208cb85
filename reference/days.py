"""Days made by table and by chance."""

from bounds import DAY_NUMBER, GIGAJOULES, MEGAJOULES, up_to
from cases import some, some_rows
from dayfile import Day, day_of
from dayformat import ENTRY, EXCUSED, FORMS, HEAD, HOURS, METER, POINT, SHIPPER
from sharecases import below


def meter(shipper, p=0, m=0, delivered=0, received=0, schedules=(0, 0, 0, 0), backhaul=(0, 0)):
    """A tag 5 row with one figure for all hours of a side."""
    return (shipper, p, m, *[delivered] * 35, *[received] * 24, *schedules, *backhaul)


def excused_gas(shipper, delivered=0, received=0):
    """A tag 9 row with one quantity for all hours of a side."""
    return (shipper, *[delivered] * 35, *[received] * 24)


def make_day(
    head=(1, 300, 100), shippers=(), points=(), entries=(), meters=(), excused=()
) -> Day:
    return day_of(
        {
            HEAD: [head],
            SHIPPER: shippers,
            POINT: points,
            ENTRY: entries,
            METER: meters,
            EXCUSED: excused,
        }
    )


def full_day():
    """As many rows as a day may have: 64, 32, 512, 64 and 64."""
    names = [65_535 - 3 * row for row in reversed(range(64))]
    points = [(side, 4_096 * row - 1) for side in (0, 1) for row in range(1, 17)]
    greatest = (1_000_000, 1_000_000, 100_000_000, 99_999_999)
    return make_day(
        (0xFFFF_FFFF, 1_000_000, 1_000_000),
        [(name, 1_000_000, 1, name, 1, 1_000_000 - name) for name in names],
        [(*point, 100_000_000) for point in points],
        [(*point, name, 100_000_000 - name) for point in points for name in names[5:21]],
        [meter(name, *greatest, [1_000_000] * 4, [2_400_000_000] * 2) for name in names],
        [excused_gas(name, 1, 2) for name in names],
    )


def some_names(chance, count):
    return sorted(chance.sample(range(1, 65_536), count))


def some_shippers(chance, greatest_count=6):
    names = some_names(chance, chance.randint(0, greatest_count))
    firm, auction, lower = (some_rows(chance, GIGAJOULES, len(names)) for _ in range(3))
    schedules = (below(chance, GIGAJOULES, mdqs) for mdqs in (firm, auction))
    return list(zip(names, firm, auction, *schedules, lower))


def some_points(chance):
    points = {(chance.randint(0, 1), chance.randint(1, 9)) for _ in range(chance.randint(0, 4))}
    return [(*point, some(chance, MEGAJOULES)) for point in sorted(points)]


def some_excused(chance, meter_row):
    """A tag 9 row for a meter: in each hour nothing, all that was metered, or less."""
    hours = meter_row[HOURS[METER]]
    return (meter_row[0], *(some(chance, up_to(hour)) for hour in hours))


def some_meters(chance, names):
    bounds = [column.bound for column in FORMS[METER].columns[1:]]
    return [(name, *(some(chance, bound) for bound in bounds)) for name in names]


def some_day(chance):
    """A sound day of a few rows."""
    shippers, points = some_shippers(chance), some_points(chance)
    names = [row[0] for row in shippers]
    entries = [(*row[:2], name) for row in points for name in names if chance.randrange(2)]
    meters = some_meters(chance, [name for name in names if chance.randrange(2)])
    return make_day(
        (some(chance, DAY_NUMBER), some(chance, GIGAJOULES), some(chance, GIGAJOULES)),
        shippers,
        points,
        [(*entry, some(chance, MEGAJOULES)) for entry in entries],
        meters,
        [some_excused(chance, row) for row in meters if chance.randrange(3) == 0],
    )
