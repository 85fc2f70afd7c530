"""Rates made whole."""
from fractions import Fraction

import pytest
from hypercube_tools.command_line import period
from hypercube_tools.faults import Fault
from hypercube_tools.rates import whole_rates

DAY = 86_400


@pytest.mark.parametrize("calls, service, period, wanted", [
    (["2"], ["3"], 3600, (3600, [2], [3])),
    (["24"], ["48"], DAY, (DAY, [24], [48])),
    (["1/2"], ["1/3"], 3600, (21_600, [3], [2])),
    (["0", "2.5"], ["3"], DAY, (2 * DAY, [0, 5], [6])),
    # 1235 days are too long a period, but 8,892,000 seconds serve.
    (["12/5"], ["360/13", "480/19"], DAY, (8_892_000, [247], [2850, 2600])),
    # Seven days have too many calls, but seven seconds have not.
    (["2592000/7"], ["86400/7"], DAY, (7, [30], [1])),
])
def test_exact(calls: list[str], service: list[str], period: int, wanted: tuple[int, list[int], list[int]]) -> None:
    found = whole_rates([Fraction(rate) for rate in calls], [Fraction(rate) for rate in service], period, False)
    assert (found.period, found.calls, found.service, found.change) == (*wanted, 0)


def test_no_rate_becomes_nothing() -> None:
    found = whole_rates([Fraction(1, 10**9), Fraction(100_003, 7)], [Fraction(1000, 3)], 3600, True)
    assert found.calls[0] == 1 and sum(found.calls) <= 1_000_000 and found.period % 3600 == 0


def test_change_is_the_largest() -> None:
    found = whole_rates([Fraction(1, 10**7)], [Fraction(1)], 10_000_000, True)
    assert (found.period, found.calls, found.service) == (100_000_000, [1], [10])
    assert found.change == 10**6 - 1


@pytest.mark.parametrize("calls, may_round, message", [("1000000.5", False, "--round"), ("1000000.5", True, "shorter period")])
def test_rates_that_no_plan_has(calls: str, may_round: bool, message: str) -> None:
    with pytest.raises(Fault, match=message):
        whole_rates([Fraction(calls)], [Fraction(1)], 3600, may_round)


@pytest.mark.parametrize("text, wanted", [("hour", 3600), ("day", DAY), ("week", 7 * DAY), ("year", 365 * DAY),
                                          ("28800", 28_800)])
def test_period(text: str, wanted: int) -> None:
    assert period(text) == wanted


@pytest.mark.parametrize("text", ["0", "100000001", "month"])
def test_period_that_is_none(text: str) -> None:
    with pytest.raises(ValueError):
        period(text)
