"""Makes the example days: from each table file here the day file and its three listings.

python3 examples/make.py            stores them anew
python3 examples/make.py --check    fails where they are not what is stored

A line of a table file that begins a paragraph says what it is about: the day, the shippers, a point,
a meter or the gas excused to a shipper; indented lines are its rows. A word that is no figure is for
the reader, but for a point's side and unit and the name of an indented row of a meter or of excused
gas. What follows a # is a remark.
"""

import pathlib
import sys
from fractions import Fraction

HERE = pathlib.Path(__file__).resolve().parent
sys.path.insert(0, str(HERE.parent / "reference"))

from cormcushion import LISTINGS, listing
from dayfile import day_of, write_day
from dayformat import ENTRY, EXCUSED, HEAD, METER, POINT, SHIPPER
from refusals import Refusal

DAYS = ("small", "cool")

# What the gate runs a program on, and what it must print.
RUN_ON = {"charges": "cool", "points": "cool"}

SIDES = ("receipt", "delivery")

# An hour's megajoules in each unit of Schedule 1: a 24th of a limit for the day.
UNITS = {
    "GJ/hour": Fraction(1_000),
    "TJ/hour": Fraction(1_000_000),
    "TJ/day": Fraction(1_000_000, 24),
}

# How many figures each row of hours has, and a meter's backhaul.
HOURS = {"yesterday": 11, "delivered": 24, "received": 24}
BACKHAUL = {"backhaul": 4}


def figures(words):
    """The figures among some words; 4x3,000 is four of them."""
    found = []
    for word in words:
        if word[0].isdigit():
            times, _, figure = word.replace(",", "").rpartition("x")
            found.extend([int(figure)] * int(times or 1))
    return found


def paragraphs(text):
    """The words of each first line, and those of its rows."""
    found = []
    for line in text.splitlines():
        words = line.partition("#")[0].split()
        if words and line[0].isspace():
            found[-1][1].append(words)
        elif words:
            found.append((words, []))
    return found


def point_row(words):
    """Side, point, capacity: a limit as Schedule 1 states it, in an hour's whole megajoules."""
    _, side, point, limit, unit = words
    return SIDES.index(side), int(point), int(Fraction(limit) * UNITS[unit])


def named_figures(words, rows, counts, left_out):
    """The figures of a paragraph's rows in the order of their names; those left out are zeros."""
    named = {name: figures(row) for name, *row in rows}
    for name, count in counts.items():
        if name in left_out:
            named.setdefault(name, [0] * count)
        if len(named.get(name, ())) != count:
            sys.exit(f"{words[0]} {words[1]} needs {count} figures for {name}")
    return [figure for name in counts for figure in named[name]]


def meter_row(words, rows):
    """A tag 5 row: the first line's figures and the rows' in the file's order."""
    shipper, p, m, *forward = figures(words)
    hours = named_figures(words, rows, HOURS, left_out=())
    backhaul = named_figures(words, rows, BACKHAUL, left_out=BACKHAUL)
    return (shipper, p, m, *hours, *forward, *backhaul)


def excused_row(words, rows):
    """A tag 9 row: the shipper and what is excused in its hours."""
    return (*figures(words), *named_figures(words, rows, HOURS, left_out=HOURS))


def tables_from(text):
    """A table file's rows for each tag."""
    tables = {tag: [] for tag in (HEAD, SHIPPER, POINT, ENTRY, METER, EXCUSED)}
    for words, rows in paragraphs(text):
        if words[0] == "day":
            tables[HEAD].append(figures(words))
        elif words[0] == "shippers":
            tables[SHIPPER].extend(map(figures, rows))
        elif words[0] == "point":
            side, point, capacity = point_row(words)
            tables[POINT].append((side, point, capacity))
            tables[ENTRY].extend((side, point, *figures(row)) for row in rows)
        elif words[0] == "meter":
            tables[METER].append(meter_row(words, rows))
        elif words[0] == "excused":
            tables[EXCUSED].append(excused_row(words, rows))
        else:
            sys.exit(f"{words[0]} is no day, shippers, point, meter or excused")
    return tables


def made():
    """Every file's bytes by its place in the repository."""
    files = {}
    for name in DAYS:
        text = HERE.joinpath(f"{name}.txt").read_text(encoding="utf-8")
        try:
            file = write_day(day_of(tables_from(text)))
        except Refusal as refusal:
            sys.exit(f"{name}.txt: REFUSED {refusal.number} {refusal.place}, a table's row from 0")
        files[f"examples/{name}.day"] = file
        for program in LISTINGS:
            files[f"examples/{name}.{program}"] = listing(program, [], file).encode()
    for program, name in RUN_ON.items():
        files[f"crates/{program}/stdin"] = files[f"examples/{name}.day"]
        files[f"crates/{program}/stdout"] = files[f"examples/{name}.{program}"]
    return files


def main():
    if sys.argv[1:] not in ([], ["--check"]):
        sys.exit(__doc__)
    for name, content in made().items():
        stored = HERE.parent.joinpath(name)
        if not sys.argv[1:]:
            stored.write_bytes(content)
        elif not stored.exists() or stored.read_bytes() != content:
            sys.exit(f"{name} is not what examples/make.py makes")


if __name__ == "__main__":
    main()
