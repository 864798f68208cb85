"""An hour at a point (cl. 6.2; cl. 6.3 is read as 6.2 with delivery figures)."""

from bounds import GIGAJOULES, MEGAJOULES, SHIPPERS
from ratio import by_ratio
from refusals import require, require_equal_lengths, require_figures, require_room, require_rows


def hour_at_point(capacity, entitlements, mdqs, room=None):
    """Each shipper's share of the hour in MJ; entitlements in MJ, firm MDQs in GJ."""
    require_equal_lengths(entitlements, mdqs)
    require_figures(MEGAJOULES, capacity)
    require_figures(SHIPPERS, len(entitlements))
    require_rows(MEGAJOULES, entitlements)
    require_rows(GIGAJOULES, mdqs)
    several = len(entitlements) >= 2
    require(not several or capacity <= sum(entitlements) or sum(mdqs) > 0, 6)
    require_room(len(entitlements), room)

    if several:
        return shares_of_several(capacity, entitlements, mdqs)
    return [capacity for _ in entitlements]


def shares_of_several(capacity, entitlements, mdqs):
    total_entitlement, total_mdq = sum(entitlements), sum(mdqs)
    if total_entitlement > capacity:
        return [by_ratio(capacity, own, total_entitlement) for own in entitlements]
    spare = capacity - total_entitlement
    if spare == 0:
        return list(entitlements)
    return [own + by_ratio(spare, mdq, total_mdq) for own, mdq in zip(entitlements, mdqs)]
