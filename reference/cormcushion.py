"""Prints a listing of the day file on standard input.

python3 reference/cormcushion.py shares|charges [RATE]|points < file
"""

import sys

from bounds import RATE
from decimals import decimal_of
from listings import charges_listing, lines, points_listing, refusal_row, shares_listing
from refusals import Refusal, require
from tariff import OVERRUN_RATE

LISTINGS = ("shares", "charges", "points")


def rate_from(words):
    """One decimal number within the bound of a rate; Schedule 2's where none is given."""
    if not words:
        return OVERRUN_RATE
    require(len(words) == 1, 3)
    return decimal_of(words[0].encode(errors="surrogateescape"), RATE[-1])


def listing(name, words, file):
    """What the program prints: the listing or the line of its refusal."""
    try:
        if name == "charges":
            return charges_listing(file, rate_from(words))
        return {"shares": shares_listing, "points": points_listing}[name](file)
    except Refusal as refusal:
        return lines([refusal_row(refusal)])


def main():
    name, *words = sys.argv[1:] or [""]
    if name not in LISTINGS or (words and name != "charges"):
        sys.exit(__doc__)
    sys.stdout.write(listing(name, words, sys.stdin.buffer.read()))


if __name__ == "__main__":
    main()
