"""Shares by ratio."""


def by_ratio(quantity, part, whole):
    """quantity × part / whole, rounded down."""
    return quantity * part // whole
