"""The cases that the proved programs are run on, and the answers that they must print.

python3 reference/vectors.py            stores both anew
python3 reference/vectors.py --check    fails where they are not what is stored
"""

import pathlib
import sys
from typing import Callable, NamedTuple

import cases
import chargecases
import columncases
import daycases
import decimalcases
import entrycases
import excusedcases
import filecases
import gascases
import hourcases
import metercases
import monthcases
import overruncases
import readingcases
import rowcases
import sharecases
import textcases
import valuecases

CRATES = pathlib.Path(__file__).resolve().parent.parent.joinpath("crates")


class Program(NamedTuple):
    """Its crate; its routines, each numbered by its place from 1, so that further ones go last;
    a routine's cases; and the words of a case's answer."""

    crate: str
    routines: tuple
    cases_of: Callable
    words_of: Callable


PROGRAMS = (
    Program(
        "vectors",
        (
            *sharecases.ROUTINES,
            *gascases.ROUTINES,
            *overruncases.ROUTINES,
            *chargecases.ROUTINES,
        ),
        cases.cases_of,
        cases.words_of,
    ),
    Program(
        "filevectors",
        (*daycases.ROUTINES, *entrycases.ROUTINES, *textcases.ROUTINES),
        filecases.cases_of,
        filecases.words_of,
    ),
    Program(
        "valuevectors",
        (
            *rowcases.ROUTINES,
            *columncases.ROUTINES,
            *metercases.ROUTINES,
            *hourcases.ROUTINES,
            *decimalcases.ROUTINES,
            *excusedcases.ROUTINES,
        ),
        filecases.cases_of,
        valuecases.words_of,
    ),
    Program(
        "monthvectors",
        monthcases.ROUTINES,
        filecases.cases_of,
        monthcases.words_of,
    ),
    Program(
        "readingvectors",
        readingcases.ROUTINES,
        filecases.cases_of,
        readingcases.words_of,
    ),
)


def input_of(number, routine, case):
    """How many words, then the words: the routine's number and its arguments."""
    words = [number]
    for field, argument in zip(routine.fields, case):
        words.extend(field.words(argument))
    return b"".join(part.to_bytes(4, "big") for part in [len(words), *words])


def line_of(program, routine, case):
    return " ".join(map(str, [routine.name, *program.words_of(routine, case)])) + "\n"


def made(program):
    """Both files' bytes by name."""
    numbered = [
        (number, routine, case)
        for number, routine in enumerate(program.routines, 1)
        for case in program.cases_of(routine)
    ]
    return {
        "stdin": b"".join(input_of(*case) for case in numbered),
        "stdout": "".join(line_of(program, *case) for _, *case in numbered).encode(),
    }


def main():
    if sys.argv[1:] not in ([], ["--check"]):
        sys.exit(__doc__)
    for program in PROGRAMS:
        for name, content in made(program).items():
            stored = CRATES.joinpath(program.crate, name)
            if not sys.argv[1:]:
                stored.write_bytes(content)
            elif stored.read_bytes() != content:
                sys.exit(f"crates/{program.crate}/{name} is not what reference/vectors.py makes")


if __name__ == "__main__":
    main()
