"""A sound file's bytes damaged."""

from cases import put
from dayformat import FORMS, write_field


def fields_of(tables):
    return [write_field(tag, row) for tag in FORMS for row in tables[tag]]


def file_of(tables):
    return b"".join(fields_of(tables))


def cuts(file):
    return [file[:end] for end in range(len(file))]


def other_tags(fields, index):
    field = fields[index]
    tags = [tag for tag in (*range(7), 9, 255) if tag != field[0]]
    return [put(fields, index, bytes([tag]) + field[1:]) for tag in tags]


def other_lengths(fields, index):
    field = fields[index]
    length = int.from_bytes(field[1:3], "big")
    lengths = (0, length - 1, length + 1, length + 256, 0xFFFF)
    return [put(fields, index, field[:1] + new.to_bytes(2, "big") + field[3:]) for new in lengths]


def other_orders(fields, index):
    """A field left out, twice, exchanged with the next, and put last."""
    before, (field, *after) = fields[:index], fields[index:]
    return [
        [*before, *after],
        [*before, field, field, *after],
        [*before, *after[:1], field, *after[1:]],
        [*before, *after, field],
    ]


# What may follow a sound file's last field: parts of a header, headers without a body.
TRAILING = [
    bytes.fromhex(given)
    for given in (
        *("00", "ff", "0400", "000000", "040009", "05010e", "05010d", "060000", "00000000"),
        *("09", "0900", "0900ee", "0900ed", "080000", "0a0000"),
    )
]


def broken_at(fields, index):
    """A field's header and its place among the others, each fault alone."""
    others = (other_tags, other_lengths, other_orders)
    return [b"".join(damaged) for other in others for damaged in other(fields, index)]


def broken_files(fields):
    """Faults of every field, and of what follows the last."""
    files = [file for index in range(len(fields)) for file in broken_at(fields, index)]
    return [*files, *(b"".join(fields) + trailing for trailing in TRAILING)]


def noise(chance, file):
    """A file with one to three bytes changed, and often cut."""
    for _ in range(chance.randint(1, 3)):
        file = bytes(put(file, chance.randrange(len(file)), chance.choice((0, 1, 255))))
    return file[: chance.choice((len(file), chance.randrange(len(file))))]
