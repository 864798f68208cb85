"""The tests of one row among the tables of a day: 3, 5 and 4, for file and writer alike.

The tables are a list of rows for each tag.
"""

from dayformat import ENTRY, EXCUSED, FORMS, HOURS, METER, POINT, SHIPPER


def key(tag, row):
    return row[: FORMS[tag].key]


def keys(tables, tag):
    return [key(tag, row) for row in tables[tag]]


def numbers_are_bounded(tag, row):
    return all(number in column.bound for column, number in zip(FORMS[tag].columns, row))


def is_no_more(excused, metered):
    """No hour is excused more than was metered in it (cl. 5.4)."""
    pairs = zip(excused[HOURS[EXCUSED]], metered[HOURS[METER]])
    return all(quantity <= hour for quantity, hour in pairs)


def is_within_a_meter(tables, tag, row):
    """Tag 9 has no more than a meter of its shipper, where there is one."""
    if tag != EXCUSED:
        return True
    meters = [meter for meter in tables[METER] if key(METER, meter) == key(tag, row)]
    return not meters or any(is_no_more(row, meter) for meter in meters)


def is_bounded(tables, tag, index):
    """3: every number within its bound, and not one row too many."""
    row = tables[tag][index]
    return (
        index + 1 in FORMS[tag].count
        and numbers_are_bounded(tag, row)
        and is_within_a_meter(tables, tag, row)
    )


def is_rising(tables, tag, index):
    rows = tables[tag]
    return index == 0 or key(tag, rows[index - 1]) < key(tag, rows[index])


def names_are_listed(tables, tag, row):
    """Tags 4 and 5 name only shippers and points listed before, tag 9 shippers with a meter."""
    if tag == ENTRY:
        side, point, shipper, _ = row
        return (side, point) in keys(tables, POINT) and (shipper,) in keys(tables, SHIPPER)
    if tag == METER:
        return key(tag, row) in keys(tables, SHIPPER)
    if tag == EXCUSED:
        return key(tag, row) in keys(tables, METER)
    return True


def is_placed(tables, tag, index):
    """5: the key rises and every name is listed."""
    return is_rising(tables, tag, index) and names_are_listed(tables, tag, tables[tag][index])


def has_mdqs(tables, tag, index):
    """4: no firm or auction schedule above zero with that MDQ zero."""
    if tag != SHIPPER:
        return True
    _, firm_mdq, auction_mdq, firm_schedule, auction_schedule, _ = tables[tag][index]
    return (firm_mdq > 0 or firm_schedule == 0) and (auction_mdq > 0 or auction_schedule == 0)


ROW_TESTS = ((3, is_bounded), (5, is_placed), (4, has_mdqs))
