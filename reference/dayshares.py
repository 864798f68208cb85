"""A day's shares: firm in three rounds, then auction, then lower tier (cl. 3.2, 3.4)."""

from typing import NamedTuple

from bounds import GIGAJOULES, SHIPPERS
from refusals import require, require_equal_lengths, require_figures, require_room, require_rows
from rounds import hold_round, round_not_held


class Totals(NamedTuple):
    firm: int
    auction: int
    lower_tier: int


class DayShares(NamedTuple):
    levels: list
    firm: list
    auction: list
    lower_tier: list
    totals: Totals
    left: int


def free_flow_mdq(firm_mdq):
    """Three quarters rounded down; the rest is Compressor MDQ (cl. 15.3)."""
    return firm_mdq * 3 // 4


def unmet(needs, shares):
    return [need - share for need, share in zip(needs, shares)]


def firm_rounds(free_flow, compressor, mdqs, schedules):
    """Rounds one, two and three."""
    free_flow_mdqs = [free_flow_mdq(mdq) for mdq in mdqs]
    compressor_mdqs = unmet(mdqs, free_flow_mdqs)
    one = hold_round(free_flow, free_flow_mdqs, schedules)
    needs = unmet(schedules, one.shares)
    two = hold_round(compressor, compressor_mdqs, needs)
    needs = unmet(needs, two.shares)
    left = free_flow + compressor - sum(one.shares) - sum(two.shares)
    three = hold_round(left, mdqs, needs)
    return one, two, three


def is_full(schedules, shares):
    """No row is short."""
    return sum(unmet(schedules, shares)) == 0


def require_mdqs(mdqs, schedules):
    """A schedule above zero has an MDQ above zero."""
    for row, (mdq, schedule) in enumerate(zip(mdqs, schedules)):
        require(mdq > 0 or schedule == 0, 4, row)


def share_day(
    free_flow,
    compressor,
    firm_mdqs,
    auction_mdqs,
    firm_schedules,
    auction_schedules,
    lower_tier_schedules,
    rooms=(None, None, None),
):
    lists = (firm_mdqs, auction_mdqs, firm_schedules, auction_schedules, lower_tier_schedules)
    rows = len(firm_mdqs)
    require_equal_lengths(*lists)
    require_figures(GIGAJOULES, free_flow, compressor)
    require_figures(SHIPPERS, rows)
    for figures in lists:
        require_rows(GIGAJOULES, figures)
    require_mdqs(firm_mdqs, firm_schedules)
    require_mdqs(auction_mdqs, auction_schedules)
    require_room(rows, *rooms)

    three_rounds = firm_rounds(free_flow, compressor, firm_mdqs, firm_schedules)
    firm = [sum(given) for given in zip(*(held.shares for held in three_rounds))]
    left = free_flow + compressor - sum(firm)

    auction = lower_tier = round_not_held(rows)
    if is_full(firm_schedules, firm):
        auction = hold_round(left, auction_mdqs, auction_schedules)
        left -= sum(auction.shares)
        if is_full(auction_schedules, auction.shares):
            lower_tier = hold_round(left, lower_tier_schedules, lower_tier_schedules)
            left -= sum(lower_tier.shares)

    return DayShares(
        levels=[held.level for held in (*three_rounds, auction, lower_tier)],
        firm=firm,
        auction=auction.shares,
        lower_tier=lower_tier.shares,
        totals=Totals(sum(firm), sum(auction.shares), sum(lower_tier.shares)),
        left=left,
    )
