"""The day file's format as data: what a field of each tag holds, and one field as bytes."""

from typing import NamedTuple

from bounds import (
    BACKHAUL_METERED,
    DAY_NUMBER,
    ENTRIES,
    EXCUSED_MEGAJOULES,
    GIGAJOULES,
    MEGAJOULES,
    NAME,
    POINTS,
    SHIPPERS,
    SIDE,
)
from refusals import require

HEADER = 3


class Column(NamedTuple):
    width: int
    bound: range


class Form(NamedTuple):
    """A tag's columns, how many of the first ones are its key, and how many fields there may be."""

    columns: tuple
    key: int
    count: range

    @property
    def length(self):
        return sum(column.width for column in self.columns)


SIDE_U8 = Column(1, SIDE)
NAME_U16 = Column(2, NAME)
DAY_U32 = Column(4, DAY_NUMBER)
GIGAJOULES_U32 = Column(4, GIGAJOULES)
MEGAJOULES_U32 = Column(4, MEGAJOULES)
BACKHAUL_U32 = Column(4, BACKHAUL_METERED)
EXCUSED_U32 = Column(4, EXCUSED_MEGAJOULES)

HEAD, SHIPPER, POINT, ENTRY, METER, EXCUSED = 1, 2, 3, 4, 5, 9

FORMS = {
    # day, free flow capacity, compressor capacity
    HEAD: Form((DAY_U32, GIGAJOULES_U32, GIGAJOULES_U32), key=0, count=range(1, 2)),
    # shipper; firm and auction MDQ; firm, auction and lower tier schedules
    SHIPPER: Form((NAME_U16, *[GIGAJOULES_U32] * 5), key=1, count=SHIPPERS),
    # side, point; capacity
    POINT: Form((SIDE_U8, NAME_U16, MEGAJOULES_U32), key=2, count=POINTS),
    # side, point, shipper; RE
    ENTRY: Form((SIDE_U8, NAME_U16, NAME_U16, MEGAJOULES_U32), key=3, count=ENTRIES),
    # shipper; P, M; 11 + 24 delivered and 24 received hours; four schedules; backhaul metered
    METER: Form(
        (
            NAME_U16,
            *[GIGAJOULES_U32] * 2,
            *[MEGAJOULES_U32] * 59,
            *[GIGAJOULES_U32] * 4,
            *[BACKHAUL_U32] * 2,
        ),
        key=1,
        count=SHIPPERS,
    ),
    # shipper; what is excused in each hour of a meter
    EXCUSED: Form((NAME_U16, *[EXCUSED_U32] * 59), key=1, count=SHIPPERS),
}

# Where a row has its hours: 11 of yesterday, 24 delivered and 24 received ones of today.
HOURS = {METER: slice(3, 62), EXCUSED: slice(1, 60)}


class Field(NamedTuple):
    tag: int
    row: tuple
    end: int


def decode(form, body):
    row, at = [], 0
    for column in form.columns:
        row.append(int.from_bytes(body[at : at + column.width], "big"))
        at += column.width
    return tuple(row)


def encode(form, row):
    return b"".join(
        number.to_bytes(column.width, "big") for column, number in zip(form.columns, row)
    )


def read_field(file, at, tags):
    """The field at a byte, where its tag may be one of some: refuses 1, 2, 1."""
    header = file[at : at + HEADER]
    require(len(header) == HEADER, 1, at)
    tag, length = header[0], int.from_bytes(header[1:], "big")
    require(tag in tags and length == FORMS[tag].length, 2, at)
    end = at + HEADER + length
    require(end <= len(file), 1, at)
    return Field(tag, decode(FORMS[tag], file[at + HEADER : end]), end)


def write_field(tag, row):
    form = FORMS[tag]
    return bytes([tag]) + form.length.to_bytes(2, "big") + encode(form, row)
