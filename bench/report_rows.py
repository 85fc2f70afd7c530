#!/usr/bin/env python3
"""Holds a report of `solve` against the measures themselves: report_rows.py REPORT <PLAN

Each measure of the plan on standard input is found in double precision from the balance equations of its words, by the
formulas of docs/model.md. The program prints how many measures there are and how wide the widest interval is, and ends with 1
if a measure lies outside its ends by more than what double precision may lose. It shares no code with the crates. The plan
has to be one that is accepted. Runs on Debian's Python with numpy.
"""
import sys

import numpy

from chain_digests import Plan, records

# What a measure may be off in double precision, as a part of itself: many times what was seen.
LOSS_OF_DIGITS = 1e-9
MILLIONTHS, THOUSANDTHS = 10**6, 10**3


def scale_of(label):
    """Into how many parts the last printed digit divides one."""
    return THOUSANDTHS if label[0] == "wait" or label[0].startswith("travel") else MILLIONTHS


class Fleet(Plan):
    """A plan with its map and its period."""

    def __init__(self, text):
        super().__init__(text)
        rows = list(records(text))
        self.atoms = [row[1] for row in rows if row[0] == "atom"]
        atom = {name: place for place, name in enumerate(self.atoms)}
        self.district = numpy.array([self.unit[row[5]] for row in rows if row[0] == "atom"])
        self.waits = self.settings.get("line", "zero") == "infinite"
        self.period = next((int(row[1]) for row in rows if row[0] == "period"), 3600)
        self.located = numpy.zeros((len(self.unit), len(atom)))
        self.travel = numpy.zeros((len(atom), len(atom)))
        for row in rows:
            if row[0] == "at":
                self.located[self.unit[row[1]], atom[row[2]]] = int(row[3]) / 1000
            if row[0] == "travel":
                self.travel[atom[row[1]], atom[row[2]]] = int(row[3])


def is_busy(units):
    """Of each unit and each word whether the unit is busy."""
    return numpy.arange(2**units) >> numpy.arange(units)[:, None] & 1 == 1


def portions(groups, busy):
    """Of each unit and each word, the portion of a list's calls that go to the unit: those of the first group with a free
    unit, in equal parts."""
    found = numpy.zeros(busy.shape)
    is_open = numpy.ones(busy.shape[1], dtype=bool)
    for group in groups:
        free = ~busy[group] & is_open
        count = free.sum(axis=0)
        found[group] = free / numpy.maximum(count, 1)
        is_open &= count == 0
    return found


def balanced(rates):
    """Masses that balance, of a matrix of rates: the states go one by one, and no number is subtracted from another, so that
    each mass is right to nearly all its digits."""
    left = rates.copy()
    size = len(left)
    for state in range(size - 1, 0, -1):
        left[:state, state] /= left[state, :state].sum()
        left[:state, :state] += numpy.outer(left[:state, state], left[state, :state])
    masses = numpy.ones(size)
    for state in range(1, size):
        masses[state] = masses[:state] @ left[:state, state]
    return masses / masses.sum()


class Solved:
    """The masses of a fleet's words, and which portions of each atom's calls each unit takes at once."""

    def __init__(self, fleet):
        self.fleet = fleet
        units = len(fleet.service)
        self.busy = is_busy(units)
        self.calls, self.service = numpy.array(fleet.calls, float), numpy.array(fleet.service, float)
        taken = [portions(groups, self.busy) for groups in fleet.lists]
        self.words = balanced(self.rates(taken))
        self.at_once = numpy.array([portion @ self.words for portion in taken]).T
        full = self.words[-1]
        self.waiting = full * self.calls.sum() / (self.service.sum() - self.calls.sum()) if fleet.waits else 0.0
        self.mass = 1 + self.waiting
        self.queued = full + self.waiting if fleet.waits else 0.0
        self.base = self.mass if fleet.waits else 1 - full

    def rates(self, taken):
        words = numpy.arange(self.busy.shape[1])
        found = numpy.zeros((len(words), len(words)))
        for unit, busy in enumerate(self.busy):
            free, bit = words[~busy], 1 << unit
            found[free, free | bit] = sum(calls * portion[unit, free] for calls, portion in zip(self.calls, taken))
            found[free | bit, free] = self.service[unit]
        return found


def share(inside, flows):
    """The part of these flows that is inside; none if nothing flows."""
    whole = flows.sum()
    return flows[inside].sum() / whole if whole else None


def load_measures(solved):
    fleet, calls, service = solved.fleet, solved.calls.sum(), solved.service.sum()
    if fleet.waits:
        queue = solved.waiting * service / (solved.mass * (service - calls))
        yield ("delay",), solved.queued / solved.mass
        yield ("queue",), queue
        yield ("wait",), fleet.period * queue / calls
    else:
        yield ("loss",), solved.words[-1] / solved.mass
    for unit, busy in zip(fleet.unit, solved.busy):
        yield ("workload", unit), (solved.words[busy].sum() + solved.waiting) / solved.mass


def flows_of(solved):
    """The flow of each atom's calls that each unit answers."""
    late = solved.queued * solved.service / solved.service.sum()
    return solved.calls * (solved.at_once + late[:, None])


def dispatch_measures(solved):
    fleet, flows = solved.fleet, flows_of(solved)
    units = list(fleet.unit)
    for unit, row in zip(units, flows):
        for atom, flow in zip(fleet.atoms, row):
            yield ("dispatch", unit, atom), flow / (solved.calls.sum() * solved.base)
    is_own = numpy.arange(len(units))[:, None] == fleet.district
    yield ("interdistrict",), share(~is_own, flows)
    for place, unit in enumerate(units):
        yield ("interdistrict-unit", unit), share(~is_own[place], flows[place])
    for place, unit in enumerate(units):
        is_other = numpy.arange(len(units)) != place
        yield ("interdistrict-district", unit), share(is_other, flows[:, fleet.district == place])


def travel_measures(solved):
    """Trips begin where a free unit is, or, of a unit that takes a call that waited, at the point of a call."""
    fleet, calls = solved.fleet, solved.calls
    trips = solved.at_once * (fleet.located @ fleet.travel)
    late = calls @ fleet.travel / calls.sum()
    to_atom = (trips.sum(axis=0) + solved.queued * late) / solved.base
    yield ("travel",), calls @ to_atom / calls.sum()
    for atom, seconds in zip(fleet.atoms, to_atom):
        yield ("travel-atom", atom), seconds
    flows = flows_of(solved)
    for place, unit in enumerate(fleet.unit):
        helped = solved.queued * solved.service[place] / solved.service.sum()
        yield ("travel-unit", unit), (calls @ trips[place] + helped * (calls @ late)) / flows[place].sum()
    for place, unit in enumerate(fleet.unit):
        inside = fleet.district == place
        whole = calls[inside].sum()
        yield ("travel-district", unit), calls[inside] @ to_atom[inside] / whole if whole else None


def measures(text):
    """Each measure of a plan by the fields of its row, and None in place of one that has no value."""
    solved = Solved(Fleet(text))
    return {label: value for found in (load_measures, dispatch_measures, travel_measures) for label, value in found(solved)}


def intervals(report):
    """The ends of each measure of a report, in units of its last digit, by the fields of its row; None for `none`."""
    found = {}
    for line in report.splitlines():
        row = line.split(",")
        if row[0] in ("prefer", "group"):
            # A name may look like an end.
            continue
        if row[-1] == "none":
            found[tuple(row[:-1])] = None
        elif "." in row[-1]:
            found[tuple(row[:-2])] = tuple(int(end.replace(".", "")) for end in row[-2:])
    return found


def faults(found, values):
    """What of the intervals of a report is not true of these values."""
    if list(found) != list(values):
        yield "the rows are other ones, or in another order"
        return
    for label, value in values.items():
        ends = found[label]
        if ends is None or value is None:
            if ends is not value:
                yield f"{','.join(label)} has a value, or has none"
            continue
        scaled = value * scale_of(label)
        slack = LOSS_OF_DIGITS * max(scaled, 1)
        if not ends[0] - slack <= scaled <= ends[1] + slack:
            yield f"{','.join(label)} is {value}, and not from {ends[0]} to {ends[1]}"


def widest(found):
    """The widest interval of a report and the fields of its row."""
    return max(((ends[1] - ends[0], label) for label, ends in found.items() if ends is not None), key=lambda row: row[0])


def main(path):
    with open(path, encoding="utf-8") as file:
        found = intervals(file.read())
    wrong = list(faults(found, measures(sys.stdin.read())))
    if wrong:
        raise SystemExit("report_rows.py: " + "; ".join(wrong))
    width, label = widest(found)
    print(f"{len(found)} measures, the widest of {width} last digits: {','.join(label)}")


if __name__ == "__main__":
    main(sys.argv[1])
