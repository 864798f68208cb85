"""A word read as one decimal number within a bound."""

from bounds import up_to
from refusals import require, require_figures


def decimal_of(word, greatest):
    """The number that a word's bytes spell: digits alone, at least one; zeros may lead."""
    require(word.isdigit(), 3)
    digits = word.lstrip(b"0") or b"0"
    require(len(digits) <= len(str(greatest)), 3)
    number = int(digits)
    require_figures(up_to(greatest), number)
    return number
