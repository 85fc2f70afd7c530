#!/usr/bin/env python3
"""Prints a made plan by the rules of plan_maker, of any number of units."""
import sys


def draws(state):
    """The states of plan_maker's generator that follow this one, without their low bits."""
    while True:
        state = (1664525 * state + 1013904223) % 2**32
        yield state >> 16


def made_plan(units, number):
    """The lines of the plan of so many units that begins with this number."""
    drawn = draws(number)
    places = []
    yield from ("version,1", "line,zero", "rule,modified", "period,3600")
    yield from (f"unit,U{n},20" for n in range(1, units + 1))
    for j in range(4 * units):
        rate, x, y = 1 + next(drawn) % 4, next(drawn) % 10000, next(drawn) % 10000
        places.append((x, y))
        yield f"atom,A{j + 1},{rate},{x},{y},U{1 + j % units}"
    for i, (x, y) in enumerate(places, 1):
        for j, (u, v) in enumerate(places, 1):
            yield f"travel,A{i},A{j},{60 + (abs(x - u) + abs(y - v)) // 10}"
    for n in range(1, units + 1):
        yield f"at,U{n},A{n},700"
        yield f"at,U{n},A{n + units},300"


if __name__ == "__main__":
    print("\n".join(made_plan(int(sys.argv[1]), int(sys.argv[2]))))
