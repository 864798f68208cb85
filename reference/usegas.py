"""System use gas: general, heater and positive imbalance fuel."""

from bounds import ACCUMULATED_IMBALANCE, GIGAJOULES, SHIPPERS, SYSTEM_USE
from ratio import by_ratio
from refusals import require, require_figures, require_room, require_rows

NO_FOUNDATION_SHIPPER = 255


def general_gas(sug, fssug, foundation, schedules, room=None):
    """SDSQ/TDSQ × (SUG − FSSUG) in MJ, the Foundation Shipper's row left out (cl. 4.2)."""
    rows = range(len(schedules))
    require_figures(SYSTEM_USE, sug, fssug)
    require_figures(SHIPPERS, len(schedules))
    require(foundation == NO_FOUNDATION_SHIPPER or foundation in rows, 3)
    require_rows(GIGAJOULES, schedules)
    require(fssug <= sug, 11)
    net = sug - fssug
    counted = [0 if row == foundation else schedules[row] for row in rows]
    total = sum(counted)
    require(net == 0 or total > 0, 10)
    require_room(len(schedules), room)

    if net == 0:
        return [0 for _ in rows]
    return [by_ratio(net, schedule, total) for schedule in counted]


def heater_gas(heater, schedules, room=None):
    """SD/TD × HF: general gas with nobody excepted (cl. 4.5)."""
    return general_gas(heater, 0, NO_FOUNDATION_SHIPPER, schedules, room)


def imbalance_fuel(start, end, mdq):
    """A hundredth of the positive imbalance above 8 % of the MDQ, in MJ (cl. 4.3)."""
    require_figures(ACCUMULATED_IMBALANCE, start, end)
    require_figures(GIGAJOULES, mdq)
    positive = max(start, end, 0)
    return max(positive - 80 * mdq, 0) // 100
