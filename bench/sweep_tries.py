#!/usr/bin/env python3
"""Tries `sweep` of a built program on plans that are drawn by chance: sweep_tries.py PROGRAM [COUNT [NUMBER]]

What it writes has to be what sweep_rows.py finds, byte for byte, and true of the measures themselves. NUMBER begins the
draws. The plans have one to six units, on both lines and by all three rules, with groups and without, with units that share
a station, atoms at one point, atoms without calls, calls far above service, and up to forty atoms. Each of the four
measures has its turn on each line, and now and then the unit has a name that the plan does not know.
"""
import collections
import pathlib
import random
import subprocess
import sys
import tempfile

from sweep_rows import MEASURES, faults, wanted

RULES = ("given", "strict", "modified")
NAMES = ("A", "Medic 1", "Übersee", "-", "unit", "x" * 32, "Q")
SPREADS = (2, 100, 1_000_000)
STATUS = {"sweep": 0, "refused": 2}


class Draw:
    """A plan that is drawn by chance, as the rows of its text."""

    def __init__(self, chance, waits):
        self.chance = chance
        units = chance.choice((1, 2, 2, 3, 3, 4, 5, 6))
        atoms = chance.randint(17, 40) if units <= 2 and chance.random() < 0.3 else chance.randint(1, 9)
        self.units = chance.sample([*NAMES, *(f"U{n}" for n in range(units))], units)
        self.atoms = [f"Z{k}" for k in range(atoms)]
        self.rule = chance.choice(RULES)
        self.grouped = self.rule == "given" and chance.random() < 0.5
        calls = [chance.randint(0, 9) for _ in self.atoms]
        calls[chance.randrange(atoms)] += 1
        service = [self.service(sum(calls), units) for _ in self.units]
        if waits and sum(calls) >= sum(service):
            service[0] += sum(calls) + 1 - sum(service)
        rows = [["version", "2"], ["line", "infinite" if waits else "zero"], ["rule", self.rule]]
        rows += [*self.places(calls, service), *self.trips(), *self.stations(), *self.lists()]
        self.text = "".join(",".join(map(str, row)) + "\n" for row in rows)

    def service(self, calls, units):
        """The rate of a unit, at a light load, a usual one, or one far above service."""
        return max(1, round(self.chance.choice((300, 3, 2, 1, 0.01)) * calls / units) + self.chance.randint(0, 2))

    def places(self, calls, service):
        spread = self.chance.choice(SPREADS)
        point = [(self.chance.randrange(spread), self.chance.randrange(spread)) for _ in self.atoms]
        rows = [["unit", unit, rate] for unit, rate in zip(self.units, service)]
        rows += [["atom", atom, rate, *xy, self.chance.choice(self.units)] for atom, rate, xy in zip(self.atoms, calls, point)]
        return rows

    def trips(self):
        longest = self.chance.choice((0, 1, 3, 900, 100_000))
        return [["travel", one, other, self.chance.randint(0, longest)] for one in self.atoms for other in self.atoms]

    def stations(self):
        """Where the units are: often two at one atom, and otherwise divided over up to three."""
        shared = self.chance.choice(self.atoms)
        for unit in self.units:
            if self.chance.random() < 0.4:
                yield ["at", unit, shared, 1000]
                continue
            cuts = sorted(self.chance.sample(range(1, 1000), min(len(self.atoms), self.chance.randint(1, 3)) - 1))
            for atom, low, high in zip(self.chance.sample(self.atoms, len(cuts) + 1), [0, *cuts], [*cuts, 1000]):
                yield ["at", unit, atom, high - low]

    def lists(self):
        if self.rule != "given":
            return
        alike = self.chance.random() < 0.2
        order = self.chance.sample(self.units, len(self.units))
        for atom in self.atoms:
            if not alike:
                order = self.chance.sample(self.units, len(self.units))
            if not self.grouped:
                yield ["prefer", atom, *order]
                continue
            left = list(order)
            while left:
                size = self.chance.randint(1, len(left))
                yield ["group", atom, *left[:size]]
                del left[:size]


def attempt(program, folder, number, chance):
    """One plan: what kinds of it there were, and what is wrong with what the program writes of it."""
    waits, measure = bool(number // len(MEASURES) % 2), MEASURES[number % len(MEASURES)]
    draw = Draw(chance, waits)
    unit = "Nobody" if chance.random() < 0.05 else chance.choice(draw.units)
    (folder / "plan.csv").write_text(draw.text, encoding="utf-8")
    done = subprocess.run([program, "sweep", "plan.csv", "--", unit, measure], cwd=folder, capture_output=True, check=False)
    written = done.stdout.decode()
    right, sites = wanted(draw.text, unit, measure)
    wrong = list(faults(written, sites)) if sites else []
    if written != right or done.returncode != STATUS[right[:right.index(",")]] or bool(done.stderr) != (done.returncode > 0):
        wrong.append(f"status {done.returncode}, {done.stderr!r}, {written!r} is not {right!r}")
    return list(kinds_of(draw, waits, measure, sites)), wrong, f"sweep plan.csv {unit} {measure}\n{draw.text}"


def kinds_of(draw, waits, measure, sites):
    """What a try was one of."""
    yield from (measure, "infinite" if waits else "zero", draw.rule)
    if draw.grouped:
        yield "grouped"
    if len(draw.atoms) > 16:
        yield "over 16 atoms"
    if not sites:
        yield "refused"
    if any(one.hi < other.lo for one in sites for other in sites):
        yield "some dropped"
    if any(one.hi == other.lo and one.lo < other.lo for one in sites for other in sites):
        yield "touching"


def main(program, count=100, number=1):
    program = str(pathlib.Path(program).resolve())
    chance, tally, failed = random.Random(int(number)), collections.Counter(), 0
    with tempfile.TemporaryDirectory() as folder:
        for place in range(int(count)):
            kinds, wrong, text = attempt(program, pathlib.Path(folder), place, chance)
            tally.update(kinds)
            if wrong:
                failed += 1
                print(f"WRONG {place}: {'; '.join(wrong)}\n{text}")
    kinds = ", ".join(f"{kind} {times}" for kind, times in sorted(tally.items()))
    print(f"sweep_tries: {count} plans, {failed} wrong; {kinds}")
    return int(failed > 0)


if __name__ == "__main__":
    if not 2 <= len(sys.argv) <= 4:
        sys.exit(__doc__)
    sys.exit(main(*sys.argv[1:]))
