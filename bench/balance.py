"""Masses that balance: whole numbers, up to a factor, for the states of a chain, found from its balance equations.

It stands apart from the method of the crates, which eliminates the states from the last to the first in intervals. Here
few states are solved exactly, by Gauss's elimination in fractions, and many to fifty digits, by sweeps over the states.
"""
from decimal import Decimal, getcontext
from fractions import Fraction

MOST_EXACT = 64
DIGITS = 60
CLOSE = Decimal(10) ** -50
MOST_SWEEPS = 100_000


def masses(rates):
    """A mass for each state, given the rates out of each: a dictionary of rates by the state that they lead to.

    State 0 has to be reached from every other, and has the mass 1.
    """
    return exact(rates) if len(rates) <= MOST_EXACT else close(rates)


def into(rates):
    """The rates into each state, by the state that they come from."""
    found = [{} for _ in rates]
    for state, row in enumerate(rates):
        for to, rate in row.items():
            found[to][state] = rate
    return found


def exact(rates):
    """One row for each state but the first: its mass times the rates out is the sum of the flows in."""
    size = len(rates)
    rows = []
    for state, sources in enumerate(into(rates)):
        row = [Fraction(0)] * size
        row[state] -= sum(rates[state].values())
        for source, rate in sources.items():
            row[source] += rate
        rows.append(row)
    rows = rows[1:]
    for column in range(1, size):
        pivot = next(place for place in range(column - 1, size - 1) if rows[place][column] != 0)
        rows[column - 1], rows[pivot] = rows[pivot], rows[column - 1]
        front = rows[column - 1] = [value / rows[column - 1][column] for value in rows[column - 1]]
        for place, row in enumerate(rows):
            factor = row[column]
            if place != column - 1 and factor != 0:
                rows[place] = [value - factor * other for value, other in zip(row, front)]
    return [Fraction(1)] + [-row[0] for row in rows]


def close(rates):
    """Sweeps: the mass of each state is set to what its balance makes of the others, until no balance is off."""
    getcontext().prec = DIGITS
    flows = [[(source, as_decimal(rate)) for source, rate in row.items()] for row in into(rates)]
    leaving = [as_decimal(sum(row.values())) for row in rates]
    found = [Decimal(1)] * len(rates)
    for sweep in range(MOST_SWEEPS):
        order = range(len(rates)) if sweep % 2 == 0 else range(len(rates) - 1, -1, -1)
        worst = Decimal(0)
        for state in order:
            value = sum(found[source] * rate for source, rate in flows[state]) / leaving[state]
            worst = max(worst, abs(value - found[state]) / value)
            found[state] = value
        if worst < CLOSE:
            return [value / found[0] for value in found]
    raise SystemExit(f"balance.py: no balance within {MOST_SWEEPS} sweeps")


def as_decimal(value):
    """A whole number or a fraction to so many digits."""
    value = Fraction(value)
    return Decimal(value.numerator) / Decimal(value.denominator)
