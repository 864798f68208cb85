"""Day files by chance: sound ones, from a head alone to as many rows as there may be, and damaged ones.

A file is a list of its fields' bytes until all damage is done.
"""

import gascases
import overruncases
import sharecases
from bounds import DAY_NUMBER, ENTRIES, EXCUSED_MEGAJOULES, MEGAJOULES, NAME, POINTS, SHIPPERS, SIDE
from cases import put, some
from dayfile import Counts, day_of, tables_of
from dayformat import (
    ENTRY,
    EXCUSED,
    FORMS,
    HEAD,
    HEADER,
    HOURS,
    METER,
    POINT,
    SHIPPER,
    write_field,
)
from days import some_excused

FULL = Counts(SHIPPERS[-1], POINTS[-1], ENTRIES[-1], SHIPPERS[-1], SHIPPERS[-1])


def some_count(chance, most):
    return chance.choice((0, most, chance.randint(0, most), chance.randint(0, most)))


def counts_up_to(chance, shippers, points):
    """Entries, meters and those with excused hours are some of those that can be."""
    shippers, points = some_count(chance, shippers), some_count(chance, points)
    entries = some_count(chance, min(shippers * points, ENTRIES[-1]))
    meters = some_count(chance, shippers)
    return Counts(shippers, points, entries, meters, some_count(chance, meters))


def few(chance):
    return counts_up_to(chance, shippers=6, points=5)


def some_counts(chance):
    """Mostly few rows, in one file of eight any number, in one of 32 as many as there may be."""
    size = chance.randrange(32)
    if size == 0:
        return FULL
    return counts_up_to(chance, SHIPPERS[-1], POINTS[-1]) if size < 5 else few(chance)


def some_names(chance, count):
    """Names next to each other, or from anywhere."""
    return sorted(chance.sample(chance.choice((NAME[: count + 2], NAME)), count))


def some_points(chance, count):
    """Sides and points, places with both sides among them."""
    places = some_names(chance, count)
    return sorted(chance.sample([(side, place) for side in SIDE for place in places], count))


def some_hour(chance, rows):
    """A point's capacity and entitlements; the capacity may be one off what is reserved."""
    capacity, _, entitlements, _ = gascases.some_hour(chance, rows)
    one_off = sum(entitlements) + chance.choice((-1, 1))
    is_taken = one_off in MEGAJOULES and chance.randrange(2) == 0
    return one_off if is_taken else capacity, entitlements


def some_entries(chance, points, names, count):
    """The rows of points and of their entries."""
    pairs = [(*point, name) for point in points for name in names]
    keys = sorted(chance.sample(pairs, count))
    point_rows, entry_rows = [], []
    for point in points:
        own = [key for key in keys if key[:2] == point]
        capacity, entitlements = some_hour(chance, len(own))
        point_rows.append((*point, capacity))
        entry_rows.extend((*key, entitlement) for key, entitlement in zip(own, entitlements))
    return point_rows, entry_rows


def some_meter(chance, name):
    p, m, *arguments = overruncases.some_day(chance, None)
    receipt, delivery = arguments[:3], arguments[3:6]
    yesterday, delivered, received = arguments[6:9]
    by_kind = [figure for pair in zip(receipt, delivery) for figure in pair]
    return (name, p, m, *yesterday, *delivered, *received, *by_kind)


def without_firm(lists):
    """No firm MDQ and no firm schedule."""
    none = [0] * len(lists[0])
    return [none, lists[1], none, *lists[3:]]


def some_day(chance, counts):
    """A sound day of so many rows; one day of four has no firm MDQ, so that points may be refused."""
    names = some_names(chance, counts.shippers)
    free_flow, compressor, _, _, _, *lists = sharecases.some_day(chance, counts.shippers)
    if chance.randrange(4) == 0:
        lists = without_firm(lists)
    points = some_points(chance, counts.points)
    point_rows, entry_rows = some_entries(chance, points, names, counts.entries)
    meters = [some_meter(chance, name) for name in sorted(chance.sample(names, counts.meters))]
    excused = [some_excused(chance, row) for row in sorted(chance.sample(meters, counts.excused))]
    return day_of(
        {
            HEAD: [(some(chance, DAY_NUMBER), free_flow, compressor)],
            SHIPPER: list(zip(names, *lists)),
            POINT: point_rows,
            ENTRY: entry_rows,
            METER: meters,
            EXCUSED: excused,
        }
    )


def fields_of(day):
    tables = tables_of(day)
    return [write_field(tag, row) for tag in FORMS for row in tables[tag]]


def some_place(chance, fields):
    """A field's place in the list, each tag as likely as another."""
    tag = chance.choice(sorted({field[0] for field in fields}))
    return chance.choice([place for place, field in enumerate(fields) if field[0] == tag])


def with_number(field, at, width, number):
    """A number put in place of a field's bytes."""
    return field[:at] + number.to_bytes(width, "big") + field[at + width :]


def column_at(form, index):
    """Where a column begins in a field."""
    return HEADER + sum(column.width for column in form.columns[:index])


def cut(chance, fields):
    file = b"".join(fields)
    return [file[: chance.choice((0, len(file) - 1, *(chance.randrange(len(file)) for _ in range(6))))]]


def change_bytes(chance, fields):
    place = some_place(chance, fields)
    field = bytearray(fields[place])
    for _ in range(chance.randint(1, 3)):
        at = chance.randrange(len(field))
        field[at] = chance.choice((0, 1, 255, field[at] ^ 1, chance.randrange(256)))
    return put(fields, place, bytes(field))


def change_header(chance, fields):
    """A tag or a length one more or one less, or another tag's."""
    place = some_place(chance, fields)
    header = int.from_bytes(fields[place][:HEADER], "big")
    other = int.from_bytes(fields[some_place(chance, fields)][:HEADER], "big")
    changed = chance.choice((header + 1, header - 1, header + 0x1_0000, header - 0x1_0000, other))
    return put(fields, place, with_number(fields[place], 0, HEADER, changed % 0x100_0000))


def change_figure(chance, fields):
    """A figure at its bound, one beyond it, or the largest that fits; each kind as likely as another."""
    place = some_place(chance, fields)
    form = FORMS.get(fields[place][0])
    if form is None:
        return fields
    kind = width, bound = chance.choice(list(dict.fromkeys(form.columns)))
    index = chance.choice([index for index, column in enumerate(form.columns) if column == kind])
    largest = 256**width - 1
    edges = {bound[0], bound[-1], max(bound[0] - 1, 0), min(bound[-1] + 1, largest), largest}
    edge = chance.choice(sorted(edges))
    return put(fields, place, with_number(fields[place], column_at(form, index), width, edge))


def take_mdq(chance, fields):
    """A shipper with a firm or auction schedule and that MDQ zero, whose name may not rise either."""
    places = [place for place, field in enumerate(fields) if field[0] == SHIPPER]
    if not places:
        return fields
    place, mdq = chance.choice(places), chance.choice((1, 2))
    field = with_number(fields[place], column_at(FORMS[SHIPPER], mdq), 4, 0)
    field = with_number(field, column_at(FORMS[SHIPPER], mdq + 2), 4, 1)
    return put(fields, place, chance.choice((field, with_number(field, HEADER, 2, NAME[0]))))


def metered_hour(fields, name, hour):
    """The greatest of a shipper's metered hours at a place; 0 where it has no meter."""
    at = column_at(FORMS[METER], HOURS[METER].start + hour)
    meters = [field for field in fields if field[0] == METER and field[HEADER : HEADER + 2] == name]
    return max((int.from_bytes(field[at : at + 4], "big") for field in meters), default=0)


def raise_excused(chance, fields):
    """An excused quantity as large as its metered hour, or one larger."""
    places = [place for place, field in enumerate(fields) if field[0] == EXCUSED]
    if not places:
        return fields
    place, hour = chance.choice(places), chance.randrange(59)
    metered = metered_hour(fields, fields[place][HEADER : HEADER + 2], hour)
    quantity = min(metered + chance.randint(0, 1), EXCUSED_MEGAJOULES[-1])
    at = column_at(FORMS[EXCUSED], HOURS[EXCUSED].start + hour)
    return put(fields, place, with_number(fields[place], at, 4, quantity))


def add_row(chance, fields):
    """One row more behind the last of a tag, its key one higher."""
    tag = fields[some_place(chance, fields)][0]
    place = max(place for place, field in enumerate(fields) if field[0] == tag)
    if tag not in FORMS or FORMS[tag].key == 0:
        return fields
    at = column_at(FORMS[tag], FORMS[tag].key - 1)
    name = int.from_bytes(fields[place][at : at + 2], "big")
    added = with_number(fields[place], at, 2, min(name + 1, NAME[-1]))
    return [*fields[: place + 1], added, *fields[place + 1 :]]


def swap(chance, fields):
    """A field and the next, or any two."""
    one = some_place(chance, fields)
    other = chance.choice((some_place(chance, fields), (one + 1) % len(fields)))
    return put(put(fields, one, fields[other]), other, fields[one])


def double(chance, fields):
    place = some_place(chance, fields)
    return [*fields[:place], fields[place], *fields[place:]]


def leave_out(chance, fields):
    place = some_place(chance, fields)
    return [*fields[:place], *fields[place + 1 :]]


def lengthen(chance, fields):
    """A few bytes more at the end, or a field of another day."""
    other = fields_of(some_day(chance, few(chance)))
    few_bytes = bytes(chance.choice((0, 1, 5, 6, 9, 255)) for _ in range(chance.randint(1, 4)))
    return [*fields, chance.choice((few_bytes, other[some_place(chance, other)]))]


# How often one is chosen beside the others.
DAMAGES = {
    cut: 2,
    change_bytes: 1,
    change_header: 1,
    change_figure: 3,
    take_mdq: 3,
    raise_excused: 2,
    add_row: 2,
    swap: 1,
    double: 1,
    leave_out: 1,
    lengthen: 1,
}


def some_damage(chance):
    (damage,) = chance.choices(list(DAMAGES), list(DAMAGES.values()))
    return damage


def some_file(chance):
    """A sound file, or one with one or two damages; some damages leave a file sound."""
    fields = fields_of(some_day(chance, some_counts(chance)))
    for _ in range(chance.choice((0, 0, 1, 1, 2))):
        if any(fields):
            fields = some_damage(chance)(chance, fields)
    return b"".join(fields)
