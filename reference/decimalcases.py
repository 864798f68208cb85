"""Cases of a word read as one decimal number."""

from bounds import RATE
from cases import WORD, Figure
from decimals import decimal_of
from filecases import Bytes
from valuecases import ValueRoutine

# Words that spell a number, zeros before some of them, and words that spell none: the bytes next to
# the digits, signs, spaces, digits of another script.
NUMBERS = ("0", "000", "7", "10", "0359000", "100000000", "100000001", "4294967295", "4294967296")
LONG = ("0" * 70 + "5", "9" * 40, "18446744073709551616", "18446744073709551621", "1" + "0" * 70)
OTHERS = ("", "-1", "+1", " 1", "1 ", "1_0", "1.0", "1e3", "x", "/", ":", "1/", ":1", "1\n", "٣")
NO_TEXT = (b"\0", b"1\0", b"\xff", b"\xb1", b"0" * 20 + b"\x2f")


def answer_decimal(greatest, word):
    return [decimal_of(word, greatest)], []


def some_word(chance):
    """A number, and a bound that is often it or one less."""
    number = chance.randrange(10 ** chance.randint(1, 9))
    greatest = chance.choice((number, max(number - 1, 0), chance.randrange(2**32)))
    return [greatest, b"0" * chance.randint(0, 3) + str(number).encode()]


def decimal_cases(chance):
    words = [*(word.encode() for word in (*NUMBERS, *LONG, *OTHERS)), *NO_TEXT]
    return [
        *([RATE[-1], word] for word in words),
        *([greatest, word] for greatest in (0, 6, 7, 9, 10) for word in (b"0", b"7", b"10")),
        *([WORD[-1], word.encode()] for word in (*NUMBERS[-2:], *LONG)),
        *(some_word(chance) for _ in range(6)),
    ]


ROUTINES = (ValueRoutine("decimal_of", (Figure(WORD), Bytes()), answer_decimal, decimal_cases),)
