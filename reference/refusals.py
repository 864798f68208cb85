"""A refusal, and the tests that several rules share. A place not given is 0."""


class Refusal(Exception):
    """One of 01's refusal numbers and the place it is about."""

    def __init__(self, number, place):
        super().__init__(number, place)
        self.number = number
        self.place = place


def require(kept, number, place=0):
    if not kept:
        raise Refusal(number, place)


def require_equal_lengths(*lists):
    require(len({len(figures) for figures in lists}) == 1, 9)


def require_hours(count, hours):
    """An hour list has its stated length."""
    require(len(hours) == count, 9)


def require_figures(bound, *figures):
    """Single figures and counts stand within their bound."""
    for figure in figures:
        require(figure in bound, 3)


def require_rows(bound, figures):
    """Every row of a list stands within its bound; the place is the row."""
    for row, figure in enumerate(figures):
        require(figure in bound, 3, row)


def require_room(needed, *rooms):
    """Every lent output holds the answer; None lends whatever is needed."""
    for room in rooms:
        require(room is None or needed <= room, 7)
