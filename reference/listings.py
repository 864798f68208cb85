"""The three listings that programs print, from a day file's bytes to text."""

from dayfile import read_day, tables_of
from dayformat import ENTRY, EXCUSED, METER, POINT, SHIPPER
from daymeters import hours_of, yesterday_of
from dayshares import share_day
from overruns import NOTHING_EXCUSED, BackhaulMetered, Excused, Schedules, day_overruns
from pointshares import hour_at_point
from refusals import Refusal
from tariff import overrun_charge


def lines(rows):
    """Each row's words parted by a space, each line ended."""
    return "".join(" ".join(str(word) for word in row) + "\n" for row in rows)


def refusal_row(refusal):
    return ("REFUSED", refusal.number, refusal.place)


def column(rows, index):
    return [row[index] for row in rows]


def shares_listing(file):
    """DAY number, FIRM total, LEFT; then shipper, firm, auction, lower tier."""
    day = read_day(file)
    shippers = tables_of(day)[SHIPPER]
    names, *lists = (column(shippers, index) for index in range(6))
    shares = share_day(day.head.free_flow, day.head.compressor, *lists)
    first = ("DAY", day.head.day, "FIRM", shares.totals.firm, "LEFT", shares.left)
    return lines([first, *zip(names, shares.firm, shares.auction, shares.lower_tier)])


def excused_by_shipper(rows):
    """The excused hours of each shipper that has a tag 9 field."""
    return {row[0]: Excused(yesterday_of(EXCUSED, row), *hours_of(EXCUSED, row)) for row in rows}


def meter_overruns(meter, excused):
    """The overruns from the figures of a tag 5 field, and from its shipper's excused hours."""
    return day_overruns(
        p=meter[1],
        m=meter[2],
        yesterday=yesterday_of(METER, meter),
        hours=hours_of(METER, meter),
        schedules=Schedules(*meter[62:66]),
        metered=BackhaulMetered(*meter[66:68]),
        excused=excused,
    )


def charges_listing(file, rate):
    """DAY number, RATE; then shipper, the four overruns, the greatest, its charge in cents."""
    day = read_day(file)
    tables = tables_of(day)
    excused = excused_by_shipper(tables[EXCUSED])
    rows = [("DAY", day.head.day, "RATE", rate)]
    for meter in tables[METER]:
        overruns = meter_overruns(meter, excused.get(meter[0], NOTHING_EXCUSED))
        rows.append((meter[0], *overruns, overrun_charge(rate, overruns.greatest)))
    return lines(rows)


def point_rows(capacity, entries, firm_mdqs):
    """Shipper and share for each entry, or the refusal of this point's hour."""
    shippers, entitlements = column(entries, 2), column(entries, 3)
    mdqs = [firm_mdqs[shipper] for shipper in shippers]
    try:
        return list(zip(shippers, hour_at_point(capacity, entitlements, mdqs)))
    except Refusal as refusal:
        return [refusal_row(refusal)]


def points_listing(file):
    """DAY number; then POINT side point capacity, each followed by its shippers' shares."""
    day = read_day(file)
    tables = tables_of(day)
    firm_mdqs = {row[0]: row[1] for row in tables[SHIPPER]}
    rows = [("DAY", day.head.day)]
    for side, point, capacity in tables[POINT]:
        entries = [entry for entry in tables[ENTRY] if entry[:2] == (side, point)]
        rows.append(("POINT", side, point, capacity))
        rows.extend(point_rows(capacity, entries, firm_mdqs))
    return lines(rows)
