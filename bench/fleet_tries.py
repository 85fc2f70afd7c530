#!/usr/bin/env python3
"""Tries `fleet` of a built program on fleets that are drawn by chance: fleet_tries.py PROGRAM [COUNT [NUMBER]]

COUNT fleets have up to twelve crews, 100 where no number is given, and each fifth of them one crew at each station; a fifth as
many have 20 to 60 crews. Each interval has to hold the measure as fleet_rows.py finds it. Up to twelve crews, `solve` of the plan
with a unit for each crew has to overlap it at every measure that both have: by elimination, or with more than nine crews by a
certificate. With one crew at each station, so has `solve` of the very text, at every measure. NUMBER begins the draws. The fleets
have one to eight stations, on both lines and by all three rules, with equal and spread rates, light and heavy, and with atoms and
districts without calls. How wide the widest interval is, is said at the end. Runs on Debian's Python with numpy.
"""
import collections
import math
import pathlib
import random
import subprocess
import sys
import tempfile

from fleet_rows import OF_STATIONS, Stations, expanded, measures, report_faults
from report_rows import intervals, widest
from sweep_tries import RULES, Draw

# How many crews the two kinds of fleets have, and the most states of one, so that it is solved in double precision in seconds.
SMALL, LARGE = (1, 12), (20, 60)
MOST_STATES = 8000
# Up to so many crews elimination takes less than a second.
MOST_ELIMINATED = 9
PERIODS = (600, 3600, 86_400)
NAMES = ("Übersee", "-", *(f"S{number}" for number in range(6)))


class FleetDraw(Draw):
    """A fleet that is drawn by chance, as the rows of its text."""

    def __init__(self, chance, number, crews):
        self.chance = chance
        is_single = crews == SMALL and number % 5 == 0
        self.units = chance.sample(NAMES, chance.randint(1, 8 if is_single else 6))
        self.crews = [1] * len(self.units) if is_single else self.drawn_crews(*crews)
        self.atoms = [f"Z{k}" for k in range(chance.randint(1, 8))]
        self.rule, self.grouped = chance.choice(RULES), False
        calls = [20 * chance.randint(0, 9) for _ in self.atoms]
        calls[chance.randrange(len(calls))] += 20
        self.waits = bool(number // 5 % 2)
        service = self.drawn_service(sum(calls))
        rows = [["version", "3"], ["line", "infinite" if self.waits else "zero"], ["rule", self.rule]]
        rows += [["period", chance.choice(PERIODS)]]
        rows += [["crews", name, crews] for name, crews in zip(self.units, self.crews) if crews > 1]
        rows += [*self.places(calls, service), *self.trips(), *self.stations(), *self.lists()]
        self.text = "".join(",".join(map(str, row)) + "\n" for row in rows)

    def drawn_crews(self, least, most):
        """How many crews each station has, in all at least and at most so many."""
        while True:
            count = self.chance.randint(max(least, len(self.units)), most) - len(self.units)
            shares = [self.chance.random() + 0.1 for _ in self.units]
            further = collections.Counter(self.chance.choices(range(len(shares)), shares, k=count))
            crews = [1 + further[place] for place in range(len(shares))]
            if math.prod(number + 1 for number in crews) <= MOST_STATES:
                return crews

    def drawn_service(self, calls):
        """The rates of a crew of each station, equal or spread. On the infinite line all crews serve more calls than come."""
        rates = [self.service(calls, sum(self.crews)) for _ in self.units]
        if self.chance.random() < 0.5:
            rates = [self.chance.randint(1, 2 * max(rates)) for _ in self.units]
        if self.waits:
            rates[0] += max(0, calls + 1 - sum(rate * crews for rate, crews in zip(rates, self.crews)))
        return rates


def run(program, folder, text, *words):
    (folder / "plan.csv").write_text(text, encoding="utf-8")
    done = subprocess.run([program, words[0], "plan.csv", *words[1:]], cwd=folder, capture_output=True, check=False)
    return done.returncode, done.stdout.decode()


def overlap(found, label, ends):
    """What is wrong if these ends do not overlap those of a fleet's measure."""
    mine = found.get(label)
    if mine is None or ends is None:
        if mine is not ends:
            yield f"{','.join(label)} is {mine} and {ends}"
    elif max(mine[0], ends[0]) > min(mine[1], ends[1]):
        yield f"{','.join(label)} is {mine} and {ends}"


def same_text(found, solved):
    """With one crew at each station `solve` has the same measures, and a station is full while its crew is busy."""
    for label, ends in solved.items():
        yield from overlap(found, (OF_STATIONS.get(label[0], label[0]), *label[1:]), ends)
        if label[0] == "workload":
            yield from overlap(found, ("full", *label[1:]), ends)


def each_crew(fleet, found, solved):
    """Of the plan with a unit for each crew: what each crew has in common with its station, and the dispatches of all its crews
    together."""
    names = list(fleet.unit)
    answers = collections.defaultdict(lambda: [0, 0])
    for label, ends in solved.items():
        name = names[int(label[1].split(".")[0]) - 1] if len(label) > 1 and label[0] != "travel-atom" else ""
        if label[0] in ("workload", "travel-unit"):
            yield from overlap(found, (OF_STATIONS.get(label[0], label[0]), name), ends)
        elif label[0] == "travel-district" and label[1].endswith(".1"):
            yield from overlap(found, ("travel-district", name), ends)
        elif label[0] == "dispatch":
            answers[name, label[2]] = [sum(pair) for pair in zip(answers[name, label[2]], ends)]
        elif label[0] in ("loss", "delay", "queue", "wait", "travel", "travel-atom"):
            yield from overlap(found, label, ends)
    for (name, atom), ends in answers.items():
        yield from overlap(found, ("dispatch", name, atom), ends)


def solved_faults(program, folder, draw, fleet, found):
    """What is wrong beside `solve` of the same fleet, if it has few enough crews."""
    crews = sum(draw.crews)
    if crews <= SMALL[1]:
        method = "elimination" if crews <= MOST_ELIMINATED else "certificate"
        status, report = run(program, folder, expanded(fleet), "solve", "--method", method)
        yield from [f"solve ends with {status}: {report!r}"] if status else each_crew(fleet, found, intervals(report))
    if max(draw.crews) == 1:
        status, report = run(program, folder, draw.text.replace("version,3", "version,1"), "solve")
        yield from [f"solve ends with {status}: {report!r}"] if status else same_text(found, intervals(report))


def attempt(program, folder, draw):
    """What is wrong with what the program writes of one fleet, and its widest interval."""
    fleet = Stations(draw.text)
    status, report = run(program, folder, draw.text, "fleet")
    if status:
        return [f"status {status}: {report!r}"], (0, ())
    found = intervals(report)
    wrong = [*report_faults(report, fleet, measures(fleet)), *solved_faults(program, folder, draw, fleet, found)]
    return wrong, widest(found)


def main(program, count=100, number=1):
    program = str(pathlib.Path(program).resolve())
    chance, failed, wide = random.Random(int(number)), 0, (0, ())
    kinds = [(place, SMALL) for place in range(int(count))] + [(place, LARGE) for place in range(int(count) // 5)]
    with tempfile.TemporaryDirectory() as folder:
        for place, crews in kinds:
            draw = FleetDraw(chance, place, crews)
            wrong, width = attempt(program, pathlib.Path(folder), draw)
            wide = max(wide, width)
            if wrong:
                failed += 1
                print(f"WRONG {place}: {'; '.join(wrong)}\n{draw.text}")
    print(f"fleet_tries: {len(kinds)} fleets, {failed} wrong; the widest of {wide[0]} last digits: {','.join(wide[1])}")
    return int(failed > 0)


if __name__ == "__main__":
    if not 2 <= len(sys.argv) <= 4:
        sys.exit(__doc__)
    sys.exit(main(*sys.argv[1:]))
