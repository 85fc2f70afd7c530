#!/usr/bin/env python3
"""Finds a certificate for the masses of a plan's words, and checks it in whole numbers: certificate.py <PLAN

The masses and their room are guessed in double precision. They are then written as whole numbers, and that they are a
certificate is checked without any rounding: at each word but one, no more flows out than in by the low ends, and no less by
the high ends. Last, the masses that balance (balance.py) are held against the ends. The program prints how far the ends of a
mass are apart, as a part of it, and ends with 1 if there is no certificate or a mass lies outside. It shares no code with the
crates. Runs on Debian's Python with numpy.
"""
import sys
from fractions import Fraction

import numpy

from balance import masses
from chain_digests import SHARES, Plan
from report_rows import balanced

# The room at each word, as a part of what flows out of it: above what double precision gets wrong there.
ROOM = 1e-13
# The least mass is as many units as this.
FINENESS = 2**60


def flows(plan):
    """The rates out of each word, in whole numbers, by the word's number."""
    found = [{} for _ in range(2 ** len(plan.service))]
    for word, row in enumerate(found):
        for calls, groups in zip(plan.calls, plan.lists):
            takers = plan.takers(groups, word)
            for unit in takers:
                to = word | 1 << unit
                row[to] = row.get(to, 0) + calls * (SHARES // len(takers))
        for unit, rate in enumerate(plan.service):
            if word >> unit & 1:
                row[word ^ 1 << unit] = SHARES * rate
    return [{to: rate for to, rate in row.items() if rate} for row in found]


def table(rates):
    found = numpy.zeros((len(rates), len(rates)))
    for word, row in enumerate(rates):
        found[word, list(row)] = list(row.values())
    return found


def guess(rates):
    """Low and high ends about the masses, and the word at which nothing is asked: the one with the greatest mass."""
    matrix = table(rates)
    found = balanced(matrix)
    reference = int(found.argmax())
    leaving = matrix.sum(axis=1)
    others = numpy.arange(len(found)) != reference
    # The room grows along the ways that the chain goes, so that more flows out of each word than into it.
    balance = numpy.diag(leaving) - matrix.T
    room = numpy.zeros(len(found))
    scale = numpy.outer(1 / found, found)
    room[others] = numpy.linalg.solve((balance * scale)[others][:, others], ROOM * leaving[others]) * found[others]
    unit = Fraction(float(found.min())) / FINENESS
    low = [int(Fraction(float(mass - more)) / unit) for mass, more in zip(found, room)]
    high = [-int(-Fraction(float(mass + more)) / unit) + 1 for mass, more in zip(found, room)]
    return low, high, reference


def is_certificate(rates, low, high, reference):
    """Whether the low ends are a sub-solution and the high ends a super-solution, in order and positive at the reference."""
    into_low, into_high = [0] * len(rates), [0] * len(rates)
    for word, row in enumerate(rates):
        for to, rate in row.items():
            into_low[to] += low[word] * rate
            into_high[to] += high[word] * rate
    leaving = [sum(row.values()) for row in rates]
    return 0 < high[reference] >= low[reference] and all(
        low[word] * leaving[word] <= into_low[word] and into_high[word] < high[word] * leaving[word]
        for word in range(len(rates)) if word != reference)


def outside(low, high, found):
    """Whether these masses lie outside the ends, whatever they are multiplied by."""
    exact = [Fraction(mass) for mass in found]
    return max(Fraction(lo) / mass for lo, mass in zip(low, exact)) > min(Fraction(hi) / mass for hi, mass in zip(high, exact))


def main():
    rates = flows(Plan(sys.stdin.read()))
    low, high, reference = guess(rates)
    if not is_certificate(rates, low, high, reference):
        raise SystemExit("certificate.py: the ends that were guessed are no certificate")
    if outside(low, high, masses(rates)):
        raise SystemExit("certificate.py: a mass lies outside its ends")
    parts = [(hi - lo) / hi for lo, hi in zip(low, high)]
    print(f"{len(rates)} words, certified; the ends of a mass are apart by at most {max(parts):.1e} of it, "
          f"and all by {sum(map(lambda lo, hi: hi - lo, low, high)) / sum(high):.1e} of all mass")


if __name__ == "__main__":
    main()
