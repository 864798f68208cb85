"""Charges in cents and escalation of rates; a rate is in hundred-thousandths of a dollar."""

from bounds import CHARGEABLE_OVERRUN, CPI, GIGAJOULES, RATE, REQUESTS
from refusals import require, require_figures

# Schedule 2, as at January 2019.
OVERRUN_RATE = 359_000
VARIATION_RATE = 4_075
REQUEST_RATE = 36_271_000


def half_up(numerator, denominator):
    """numerator / denominator, a half rounded up."""
    return (2 * numerator + denominator) // (2 * denominator)


def overrun_charge(rate, megajoules):
    """Cl. 7.2; the rate is for a gigajoule."""
    require_figures(RATE, rate)
    require_figures(CHARGEABLE_OVERRUN, megajoules)
    return half_up(rate * megajoules, 1_000_000)


def variation_charge(rate, old_receipt, new_receipt, old_delivery, new_delivery):
    """The larger upward change of the two schedules; downward counts zero (cl. 9.3)."""
    require_figures(RATE, rate)
    require_figures(GIGAJOULES, old_receipt, new_receipt, old_delivery, new_delivery)
    gigajoules = max(new_receipt - old_receipt, new_delivery - old_delivery, 0)
    return half_up(rate * gigajoules, 1_000)


def request_charge(rate, requests):
    """One rounded charge for each request (cl. 9.5)."""
    require_figures(RATE, rate)
    require_figures(REQUESTS, requests)
    return half_up(rate, 1_000) * requests


def escalate(rate, new_cpi, old_cpi):
    """Old rate × new CPI / old CPI (cl. 9.2)."""
    require_figures(RATE, rate)
    require_figures(CPI, new_cpi, old_cpi)
    require(old_cpi > 0, 10)
    escalated = half_up(rate * new_cpi, old_cpi)
    require(escalated in RATE, 8)
    return escalated
