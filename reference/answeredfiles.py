"""Day files by chance with the second program's answers, for programs in other languages.

python3 reference/answeredfiles.py COUNT    prints, for each file: the file, the numbers of its day
                                            (none where it is refused), and its listing of shares;
                                            each as its length in four bytes, big-endian, and the
                                            bytes
"""

import sys
from random import Random

from cases import SEED
from dayfile import read_day, write_day
from days import full_day
from listings import lines, refusal_row, shares_listing
from randomfiles import some_file
from refusals import Refusal


def some_files(count):
    """An empty file, a full one, and so many by chance."""
    chance = Random(f"{SEED} answered")
    return [b"", write_day(full_day()), *(some_file(chance) for _ in range(count))]


def numbers_of(file):
    try:
        return b"".join(number.to_bytes(4, "big") for number in read_day(file).numbers)
    except Refusal:
        return b""


def text_of(file):
    try:
        return shares_listing(file).encode()
    except Refusal as refusal:
        return lines([refusal_row(refusal)]).encode()


def main():
    if len(sys.argv) != 2 or not sys.argv[1].isdecimal():
        sys.exit(__doc__)
    for file in some_files(int(sys.argv[1])):
        for part in (file, numbers_of(file), text_of(file)):
            sys.stdout.buffer.write(len(part).to_bytes(4, "big") + part)


if __name__ == "__main__":
    main()
