#!/usr/bin/env python3
"""Prints a made fleet of so many crews at so many stations: made_fleet.py CREWS STATIONS [KIND [NUMBER]]

There have to be at least as many crews as stations. KIND is made (calls for some six tenths of the service), heavy (twenty times
those calls), light (twenty times that service) or spread (unequal rates).
"""
import random
import sys

from made_plan import made_plan

CALLS_TIMES = {"made": 1, "heavy": 20, "light": 1, "spread": 1}
SERVICE_TIMES = {"made": 1, "heavy": 1, "light": 20, "spread": 1}


def made_fleet(crews, stations, kind="made", number=1):
    """The lines of a made plan with stations for units, the crews spread evenly over them, and calls in proportion."""
    chance = random.Random(number)
    yield "version,3"
    for row in (line.split(",") for line in made_plan(stations, number)):
        if row[0] == "unit":
            rate = chance.randint(5, 35) if kind == "spread" else 20 * SERVICE_TIMES[kind]
            place = int(row[1][1:]) - 1
            yield f"unit,{row[1]},{rate}"
            yield f"crews,{row[1]},{(crews + place) // stations}"
        elif row[0] == "atom":
            yield ",".join([*row[:2], str(int(row[2]) * CALLS_TIMES[kind] * max(1, crews // stations)), *row[3:]])
        elif row[0] != "version":
            yield ",".join(row)


if __name__ == "__main__":
    if not 3 <= len(sys.argv) <= 5:
        sys.exit(__doc__)
    print("\n".join(made_fleet(int(sys.argv[1]), int(sys.argv[2]), *sys.argv[3:4], *map(int, sys.argv[4:]))))
