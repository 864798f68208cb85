"""Cases of charges and of the escalation of rates."""

from bounds import CHARGEABLE_OVERRUN, CPI, GIGAJOULES, RATE, REQUESTS
from cases import Figure, Routine, some, wide
from tariff import (
    OVERRUN_RATE,
    REQUEST_RATE,
    VARIATION_RATE,
    escalate,
    overrun_charge,
    request_charge,
    variation_charge,
)


def some_rate(chance, schedule_2):
    return chance.choice((schedule_2, some(chance, RATE)))


def answer_overrun(rate, megajoules):
    return [overrun_charge(rate, megajoules)], []


def some_overrun(chance, _):
    return [some_rate(chance, OVERRUN_RATE), some(chance, CHARGEABLE_OVERRUN)]


def answer_variation(*arguments):
    return [variation_charge(*arguments)], []


def some_variation(chance, _):
    return [some_rate(chance, VARIATION_RATE), *(some(chance, GIGAJOULES) for _ in range(4))]


def answer_request(rate, requests):
    return [request_charge(rate, requests)], []


def some_request(chance, _):
    return [some_rate(chance, REQUEST_RATE), some(chance, REQUESTS)]


def answer_escalation(rate, new_cpi, old_cpi):
    return [escalate(rate, new_cpi, old_cpi)], []


def some_escalation(chance, _):
    """CPIs near one another, or any."""
    old_cpi = some(chance, CPI)
    near = min(old_cpi + chance.randint(0, 50), CPI[-1])
    return [some_rate(chance, OVERRUN_RATE), chance.choice((near, some(chance, CPI))), old_cpi]


ROUTINES = (
    Routine(
        "overrun_charge",
        (Figure(RATE), Figure(CHARGEABLE_OVERRUN, wide)),
        answer_overrun,
        some_overrun,
        (
            (OVERRUN_RATE, 288_000),
            # a half is rounded up, and less is not
            (1, 500_000),
            (1, 499_999),
            (RATE[-1], CHARGEABLE_OVERRUN[-1]),
        ),
    ),
    Routine(
        "variation_charge",
        (Figure(RATE), *[Figure(GIGAJOULES)] * 4),
        answer_variation,
        some_variation,
        (
            (VARIATION_RATE, 100, 200, 300, 200),
            (VARIATION_RATE, 200, 100, 0, 1),
            (VARIATION_RATE, 200, 100, 300, 200),
            (500, 0, 1, 0, 0),
            (499, 0, 0, 0, 1),
            (RATE[-1], 0, GIGAJOULES[-1], GIGAJOULES[-1], 0),
        ),
    ),
    Routine(
        "request_charge",
        (Figure(RATE), Figure(REQUESTS)),
        answer_request,
        some_request,
        ((REQUEST_RATE, 1), (500, 3), (499, 3), (1_500, REQUESTS[-1])),
    ),
    Routine(
        "escalate",
        (Figure(RATE), *[Figure(CPI)] * 2),
        answer_escalation,
        some_escalation,
        (
            (OVERRUN_RATE, 1_163, 1_143),
            (1, 1, 2),
            (1, 1, 3),
            (RATE[-1], 1, 1),
            # the rate's bound, reached and passed by rounding
            (RATE[-1], CPI[-1], CPI[-1] - 1),
            (99_999_999, 2, 2),
            (66_666_667, 3, 2),
            (66_666_666, 3, 2),
            (0, 0, 0),
            (RATE[-1], CPI[-1], 0),
        ),
    ),
)
