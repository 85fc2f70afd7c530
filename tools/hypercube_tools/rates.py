"""Rates as whole counts per period, as a plan has them."""
import math
from dataclasses import dataclass
from fractions import Fraction
from typing import Sequence

from .faults import Fault

MOST_PERIOD = 100_000_000
MOST_SUM = 1_000_000


@dataclass(frozen=True)
class WholeRates:
    """Rates as whole numbers per `period` seconds, and by how much the one that was changed most was changed, as a share."""
    period: int
    calls: list[int]
    service: list[int]
    change: Fraction


def whole_rates(calls: Sequence[Fraction], service: Sequence[Fraction], period: int, may_round: bool) -> WholeRates:
    """The same rates over a longer period in which they are all whole numbers.

    The rates are per `period` seconds. The new period is the shortest multiple of the old one that serves, else the
    shortest of all. If none is within the limits of a plan, rates are rounded over the longest one if they may be.
    """
    for new in exact_periods([*calls, *service], period):
        if is_within(calls, service, Fraction(new, period)) and new <= MOST_PERIOD:
            return scaled(calls, service, period, new)
    if not may_round:
        raise Fault("no period of at most 100,000,000 seconds makes all rates whole numbers that sum to at most 1,000,000. "
                    "Give the rates with fewer digits, or add --round")
    return scaled(calls, service, period, longest_period(calls, service, period))


def exact_periods(rates: Sequence[Fraction], period: int) -> tuple[int, int]:
    """The shortest multiple of the period in which all rates are whole, and the shortest such period of all."""
    periods = math.lcm(*(rate.denominator for rate in rates))
    seconds = math.lcm(*((rate / period).denominator for rate in rates))
    return periods * period, seconds


def is_within(calls: Sequence[Fraction], service: Sequence[Fraction], factor: Fraction) -> bool:
    return max(sum(calls), sum(service)) * factor <= MOST_SUM


def longest_period(calls: Sequence[Fraction], service: Sequence[Fraction], period: int) -> int:
    """The longest multiple of the period within the limits, with room for each rate to be rounded up."""
    room = MOST_SUM - max(len(calls), len(service))
    periods = min(MOST_PERIOD // period, math.floor(room / max(sum(calls), sum(service))))
    if periods < 1:
        raise Fault("the rates sum to more than 1,000,000 in a period. Give them for a shorter period")
    return periods * period


def scaled(calls: Sequence[Fraction], service: Sequence[Fraction], period: int, new: int) -> WholeRates:
    factor = Fraction(new, period)
    change = max(abs(nearest(rate * factor) / (rate * factor) - 1) for rate in [*calls, *service] if rate)
    return WholeRates(new, [nearest(rate * factor) for rate in calls], [nearest(rate * factor) for rate in service], change)


def nearest(value: Fraction) -> int:
    """The nearest whole number, but never 0 for a rate that is not 0."""
    return max(round(value), 1) if value else 0
