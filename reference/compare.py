"""Compares the built programs with the second program on day files by chance, sound and damaged.

python3 reference/compare.py [--files 3000] [--seed 1] [--first 1] [PROGRAM ...]

Proves and builds the programs first (shares, charges and points unless named). Files are numbered;
a seed and a number make the same file again. At the first file on which a program and the second
program differ it keeps the file in target/, shows both and exits with 1.
"""

import argparse
import os
import pathlib
import subprocess
import sys
from collections import Counter
from concurrent.futures import ProcessPoolExecutor
from functools import partial
from random import Random
from typing import NamedTuple, Optional

from bounds import RATE
from cases import some
from cormcushion import LISTINGS, listing
from dayfile import read_day
from randomfiles import some_file
from refusals import Refusal

ROOT = pathlib.Path(__file__).resolve().parent.parent
KEPT = ROOT.joinpath("target", "differs.day")

# How many files a worker takes at a time, and how many seconds a program may take for one.
BATCH = 16
PATIENCE = 60

# At this rate an odd number of megajoules costs so many cents and a half.
HALF_CENT = 500_000

NO_RATES = (
    "",
    "-1",
    "+1",
    " 1",
    "1 ",
    "1_0",
    "1.0",
    "1e3",
    "0x10",
    "x",
    "٣",
    # a byte that is no text
    os.fsdecode(b"\xff"),
    str(RATE[-1] + 1),
    # what 32 and 64 bits can't hold, so that it comes out small
    str(2**32),
    str(2**64 + 1),
    "9" * 400,
)


class Difference(NamedTuple):
    program: str
    words: list
    built: str
    second: str


class Outcome(NamedTuple):
    """What came of one file: the reader's refusal or None, what else was refused, where programs differ."""

    number: int
    size: int
    refusal: Optional[int]
    rates_refused: int
    points_refused: int
    differences: list


def start_words(program):
    """Proves and builds a program; the words that start it."""
    command = ["bash", str(ROOT.joinpath("run")), "--start", program]
    done = subprocess.run(command, stdout=subprocess.PIPE, text=True, check=False)
    if done.returncode:
        sys.exit(f"{program} can't be built")
    return done.stdout.splitlines()


def some_words(chance):
    """Arguments of charges: none, a rate, one with leading zeros; or no rate, or two."""
    rate = str(chance.choice((some(chance, RATE), HALF_CENT)))
    zeros = "0" * chance.choice((1, 3, 300))
    refused = chance.choice(([chance.choice(NO_RATES)], [rate, rate]))
    return chance.choice(([], [rate], [rate], [zeros + rate], refused))


def made(seed, number):
    """The file of a number, and the arguments that charges takes with it."""
    chance = Random(f"{seed} {number}")
    return some_file(chance), some_words(chance)


def printed(command, file):
    """What a program prints, and how it ended where it did not end well."""
    try:
        done = subprocess.run(command, input=file, capture_output=True, check=False, timeout=PATIENCE)
    except subprocess.TimeoutExpired:
        return f"(no end after {PATIENCE} seconds)\n"
    ended = f"(ended with {done.returncode})\n" if done.returncode else ""
    return (done.stdout + done.stderr).decode(errors="replace") + ended


def refusal_of(file):
    try:
        read_day(file)
    except Refusal as refusal:
        return refusal.number
    return None


def compare(commands, seed, number):
    """Some programs, each with the words that start it, on the file of a number."""
    file, rate_words = made(seed, number)
    second, differences = {}, []
    for program, command in commands.items():
        words = rate_words if program == "charges" else []
        second[program] = listing(program, words, file)
        built = printed([*command, *words], file)
        if built != second[program]:
            differences.append(Difference(program, words, built, second[program]))
    refusal = refusal_of(file)
    return Outcome(
        number,
        len(file),
        refusal,
        int(refusal is None and second.get("charges", "").startswith("REFUSED")),
        second.get("points", "").count("\nREFUSED"),
        differences,
    )


def tell_differences(seed, outcome):
    """Keeps the file and shows both answers."""
    KEPT.write_bytes(made(seed, outcome.number)[0])
    print(f"a difference at seed {seed}, file {outcome.number}, kept as {KEPT}")
    for program, words, built, second in outcome.differences:
        called = " ".join([program, *map(repr, words)])
        print(f"--- {called} prints\n{built}--- the second program\n{second}---")


def summary(programs, seed, outcomes):
    refusals = Counter(outcome.refusal for outcome in outcomes)
    sound = refusals.pop(None, 0)
    by_number = ", ".join(f"{count} by {number}" for number, count in sorted(refusals.items()))
    sizes = [outcome.size for outcome in outcomes]
    return (
        f"{', '.join(programs)}: no difference on {len(outcomes)} files of seed {seed}, "
        f"{min(sizes)} to {max(sizes)} bytes: {sum(refusals.values())} refused ({by_number}), {sound} sound, "
        f"{sum(outcome.rates_refused for outcome in outcomes)} of these with a rate refused, "
        f"and in them {sum(outcome.points_refused for outcome in outcomes)} points refused by 6"
    )


def compare_all(commands, seed, numbers):
    """True where no file differs; stops at the first that does."""
    outcomes = []
    with ProcessPoolExecutor() as pool:
        for outcome in pool.map(partial(compare, commands, seed), numbers, chunksize=BATCH):
            if outcome.differences:
                pool.shutdown(wait=False, cancel_futures=True)
                tell_differences(seed, outcome)
                return False
            outcomes.append(outcome)
    print(summary(list(commands), seed, outcomes))
    return True


def main():
    parser = argparse.ArgumentParser(
        description=__doc__, formatter_class=argparse.RawDescriptionHelpFormatter
    )
    parser.add_argument("--files", type=int, default=3_000)
    parser.add_argument("--seed", type=int, default=1)
    parser.add_argument("--first", type=int, default=1)
    parser.add_argument("programs", nargs="*", metavar="PROGRAM")
    asked = parser.parse_args()
    if asked.files < 1 or not set(asked.programs) <= set(LISTINGS):
        parser.error(f"at least one file, and of the programs {', '.join(LISTINGS)}")
    commands = {program: start_words(program) for program in asked.programs or LISTINGS}
    sys.exit(not compare_all(commands, asked.seed, range(asked.first, asked.first + asked.files)))


if __name__ == "__main__":
    main()
