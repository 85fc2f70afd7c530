#!/usr/bin/env python3
"""Holds a report of `fleet` against the measures themselves: fleet_rows.py FLEET [REPORT]

Each measure of the fleet in FLEET is found in double precision from the balance equations of its states, which are the numbers
of busy crews at each station, by the formulas of docs/model.md. The program prints how many measures there are and how wide
the widest interval is, and ends with 1 if a measure lies outside its ends by more than what double precision may lose, or if
the rows before the measures are other ones. Without REPORT (`-` is standard input) it prints what a report may say.

A fleet of up to twelve crews is also written as a plan with a unit for each crew. Its measures are found over all words, by
report_rows.py, and the program ends with 1 if the two ways differ. It shares no code with the crates. The fleet has to be one
that is accepted. Runs on Debian's Python with numpy.
"""
import math
import sys

import numpy

from chain_digests import records
from report_rows import Fleet, Solved, dispatch_measures, faults, flows_of, intervals, scale_of, share, travel_measures, widest
from report_rows import load_measures as loads_of_units

# Up to so many states are eliminated one by one. More are swept over until no mass changes by more than this part of itself.
MOST_ELIMINATED = 4096
LAST_CHANGE = 4e-15
MOST_SWEEPS = 100_000
# Up to so many crews the measures are found over all words too.
MOST_WORDED = 12
# How far two ways to a measure may be apart, as a part of it.
APART = 1e-9
OF_STATIONS = {"interdistrict-unit": "interdistrict-station", "travel-unit": "travel-station"}


class Stations(Fleet):
    """A fleet's text: a plan of stations, and how many crews each has."""

    def __init__(self, text):
        super().__init__(text)
        self.crews = numpy.ones(len(self.unit), dtype=int)
        for row in records(text):
            if row[0] == "crews":
                self.crews[self.unit[row[1]]] = int(row[2])
        self.orders = [[station for [station] in groups] for groups in self.lists]


class Chain:
    """The states of a fleet, and of each state and station: the busy crews, whether one is free, and the rates at which crews are
    sent and end their services."""

    def __init__(self, fleet):
        shape = fleet.crews + 1
        size = int(shape.prod())
        self.busy = numpy.array(numpy.unravel_index(numpy.arange(size), shape))
        self.step = numpy.array([int(shape[place + 1:].prod()) for place in range(len(shape))])
        self.room = self.busy < fleet.crews[:, None]
        self.takers = {tuple(order): self.taker(order) for order in fleet.orders}
        self.sent = numpy.zeros(self.busy.shape)
        for order, calls in zip(fleet.orders, fleet.calls):
            taker = self.takers[tuple(order)]
            self.sent[taker[:-1], numpy.arange(size - 1)] += calls
        self.ended = self.busy * numpy.array(fleet.service, float)[:, None]
        level = self.busy.sum(axis=0)
        self.levels = [numpy.flatnonzero(level == count) for count in range(level[-1] + 1)]

    def taker(self, order):
        """Of each state the first station of this order with a free crew. The last state, in which all are busy, has none."""
        found = numpy.full(self.busy.shape[1], -1)
        for station in reversed(order):
            found[self.room[station]] = station
        return found


def masses(chain):
    """Masses that balance, of which the sum is 1."""
    found = eliminated(chain) if chain.busy.shape[1] <= MOST_ELIMINATED else swept(chain)
    return found / found.sum()


def eliminated(chain):
    """The states go one by one, those with the most busy crews first, and no number is subtracted from another, so that each
    mass is right to nearly all its digits. A state leads only to states with one busy crew more or less."""
    place = numpy.empty(chain.busy.shape[1], dtype=int)
    for level in chain.levels:
        place[level] = numpy.arange(len(level))
    entries = numpy.zeros((1, 1))
    columns = []
    for below, here in zip(chain.levels[-2::-1], chain.levels[:0:-1]):
        size = len(below)
        rates = numpy.zeros((size + len(here),) * 2)
        rates[size:, size:] = entries
        for room, busy, sent, ended, step in zip(chain.room, chain.busy, chain.sent, chain.ended, chain.step):
            sending, ending = below[room[below]], here[busy[here] > 0]
            rates[place[sending], size + place[sending + step]] = sent[sending]
            rates[size + place[ending], place[ending - step]] = ended[ending]
        for state in range(len(rates) - 1, size - 1, -1):
            rates[:state, state] /= rates[state, :state].sum()
            rates[:state, :state] += numpy.outer(rates[:state, state], rates[state, :state])
        entries = rates[:size, :size]
        columns.append(rates[:, size:].copy())
    return weighed(chain, columns[::-1])


def weighed(chain, columns):
    """The masses of the states, level by level, from what is left of the entries to each."""
    found = numpy.ones(chain.busy.shape[1])
    for below, here, column in zip(chain.levels, chain.levels[1:], columns):
        row = numpy.concatenate([found[below], numpy.zeros(len(here))])
        for state in range(len(here)):
            row[len(below) + state] = row[:len(below) + state] @ column[:len(below) + state, state]
        found[here] = row[len(below):]
        found /= found[here].sum()
    return found


class Level:
    """The states with equally many busy crews: from which states they are reached, at which rates, and the rates out of them."""

    def __init__(self, chain, states):
        self.states = states
        sources, rates = [], []
        for room, busy, sent, ended, step in zip(chain.room, chain.busy, chain.sent, chain.ended, chain.step):
            for is_there, source, rate in ((busy[states] > 0, states - step, sent), (room[states], states + step, ended)):
                source = numpy.where(is_there, source, 0)
                sources.append(source)
                rates.append(numpy.where(is_there, rate[source], 0))
        self.sources, self.rates = numpy.array(sources), numpy.array(rates)
        self.ends = chain.ended[:, states].sum(axis=0)
        self.out = self.ends + chain.sent[:, states].sum(axis=0)

    def settle(self, found):
        """Gives each state the mass with which it balances."""
        found[self.states] = (self.rates * found[self.sources]).sum(axis=0) / self.out


def swept(chain):
    """All states get the masses with which they balance, level by level, up and down, until no mass changes."""
    levels = [Level(chain, states) for states in chain.levels]
    calls = chain.sent[:, 0].sum()
    found = numpy.ones(chain.busy.shape[1])
    for _ in range(MOST_SWEEPS):
        before = found / found.sum()
        for below, here in zip(levels, levels[1:]):
            found[here.states] *= calls * found[below.states].sum() / (here.ends @ found[here.states])
            found /= found[here.states].sum()
        for level in [*levels[1:], *levels[-2::-1]]:
            level.settle(found)
        found /= found.sum()
        if numpy.all(abs(found - before) <= LAST_CHANGE * found):
            return found
    raise SystemExit(f"fleet_rows.py: no balance within {MOST_SWEEPS} sweeps")


class Manned:
    """The masses of a fleet's states, and which part of each atom's calls each station takes at once. A station's service is that
    of all its crews, so that report_rows.py finds the dispatches and travel times of stations as it does those of units."""

    def __init__(self, fleet):
        self.fleet = fleet
        self.calls = numpy.array(fleet.calls, float)
        self.service = fleet.crews * numpy.array(fleet.service, float)
        self.chain = Chain(fleet)
        self.states = masses(self.chain)
        at_once, stations = self.states[:-1], len(fleet.crews)
        taken = {order: numpy.bincount(taker[:-1], at_once, stations) for order, taker in self.chain.takers.items()}
        self.at_once = numpy.array([taken[tuple(order)] for order in fleet.orders]).T
        full = self.states[-1]
        self.waiting = full * self.calls.sum() / (self.service.sum() - self.calls.sum()) if fleet.waits else 0.0
        self.mass = 1 + self.waiting
        self.queued = full + self.waiting if fleet.waits else 0.0
        self.base = self.mass if fleet.waits else self.states[:-1].sum()


def load_measures(manned):
    fleet, calls, service = manned.fleet, manned.calls.sum(), manned.service.sum()
    if fleet.waits:
        queue = manned.waiting * service / (manned.mass * (service - calls))
        yield ("delay",), manned.queued / manned.mass
        yield ("queue",), queue
        yield ("wait",), fleet.period * queue / calls
    else:
        yield ("loss",), manned.states[-1] / manned.mass
    for name, crews, busy in zip(fleet.unit, fleet.crews, manned.chain.busy):
        yield ("workload", name), (busy @ manned.states / crews + manned.waiting) / manned.mass
    for name, room in zip(fleet.unit, manned.chain.room):
        yield ("full", name), (manned.states[~room].sum() + manned.waiting) / manned.mass


def measures(fleet):
    """Each measure of a fleet by the fields of its row, and None in place of one that has no value."""
    manned = Manned(fleet)
    found = [*load_measures(manned), *dispatch_measures(manned), *travel_measures(manned)]
    return {(OF_STATIONS.get(label[0], label[0]), *label[1:]): value for label, value in found}


def expanded(fleet):
    """The plan with a unit for each crew, by names that no two have: the station's number and the crew's."""
    crews = [[f"{station}.{crew}" for crew in range(1, count + 1)] for station, count in enumerate(fleet.crews, 1)]
    rows = [["version", 2], ["line", "infinite" if fleet.waits else "zero"], ["period", fleet.period]]
    rows += [["unit", name, rate] for names, rate in zip(crews, fleet.service) for name in names]
    rows += [["atom", atom, calls, 0, 0, crews[station][0]]
             for atom, calls, station in zip(fleet.atoms, fleet.calls, fleet.district)]
    rows += [["travel", start, end, int(seconds)] for start, row in zip(fleet.atoms, fleet.travel)
             for end, seconds in zip(fleet.atoms, row)]
    rows += [["at", name, atom, round(1000 * part)] for names, row in zip(crews, fleet.located) for name in names
             for atom, part in zip(fleet.atoms, row) if part]
    rows += [["group", atom, *crews[station]] for atom, order in zip(fleet.atoms, fleet.orders) for station in order]
    return "".join(",".join(map(str, row)) + "\n" for row in rows)


def measures_of_crews(fleet, solved):
    """Each measure of a fleet by its row's fields, from the words of its crews. Of what all crews of a station have alike, the
    values of all of them."""
    of_crews = {label: value for found in (loads_of_units, travel_measures) for label, value in found(solved)}
    station = numpy.repeat(numpy.arange(len(fleet.crews)), fleet.crews)
    names = list(fleet.unit)
    flows = flows_of(solved)
    is_home = station[:, None] == fleet.district
    for label in ("loss",), ("delay",), ("queue",), ("wait",), ("travel",):
        if label in of_crews:
            yield label, [of_crews[label]]
    yield ("interdistrict",), [share(~is_home, flows)]
    for place, atom in enumerate(fleet.atoms):
        yield ("travel-atom", atom), [of_crews["travel-atom", atom]]
        for number, name in enumerate(names):
            yield ("dispatch", name, atom), [flows[station == number, place].sum() / (solved.calls.sum() * solved.base)]
    for number, name in enumerate(names):
        own = station == number
        crews = [f"{number + 1}.{crew}" for crew in range(1, fleet.crews[number] + 1)]
        yield ("workload", name), [of_crews["workload", crew] for crew in crews]
        yield ("full", name), [(solved.words[solved.busy[own].all(axis=0)].sum() + solved.waiting) / solved.mass]
        yield ("interdistrict-station", name), [share(~is_home[own], flows[own])]
        yield ("interdistrict-district", name), [share(~own, flows[:, fleet.district == number])]
        yield ("travel-station", name), [of_crews["travel-unit", crew] for crew in crews]
        yield ("travel-district", name), [of_crews["travel-district", crews[0]]]


def apart(fleet, values):
    """Where the measures over the states and those over the words of all crews differ."""
    found = dict(measures_of_crews(fleet, Solved(Fleet(expanded(fleet)))))
    if found.keys() != values.keys():
        yield "the measures over the words are other ones"
    for label, others in found.items():
        for other in others:
            if not is_near(values[label], other):
                yield f"{','.join(label)} is {values[label]} over the states and {other} over the words"


def is_near(value, other):
    if value is None or other is None:
        return value is other
    return abs(value - other) <= APART * max(abs(value), abs(other))


def head(fleet):
    """The rows of a report before its measures."""
    service = int(fleet.crews @ numpy.array(fleet.service))
    names = list(fleet.unit)
    yield from (["fleet", 1], ["line", "infinite" if fleet.waits else "zero"], ["period", fleet.period])
    yield from (["calls", sum(fleet.calls)], ["service", service])
    yield from (["stations", len(names)], ["crews", fleet.crews.sum()], ["states", (fleet.crews + 1).prod()])
    yield from (["crews", name, crews] for name, crews in zip(names, fleet.crews))
    yield from (["prefer", atom, *(names[station] for station in order)] for atom, order in zip(fleet.atoms, fleet.orders))


def head_rows(fleet):
    return [",".join(map(str, row)) for row in head(fleet)]


def ends_of(label, value):
    """Ends about a value, as far apart as rounding and double precision make them; none of a value that is none."""
    if value is None:
        return "none"
    scale = scale_of(label)
    slack = APART * max(scale * value, 1) if value else 0
    digits = len(str(scale)) - 1
    ends = max(0, math.floor(scale * value - slack)), math.ceil(scale * value + slack)
    return ",".join(f"{end // scale}.{end % scale:0{digits}}" for end in ends)


def text_of(fleet, values):
    """What a report of a fleet with these measures may say."""
    rows = [",".join([*label, ends_of(label, value)]) for label, value in values.items()]
    return "\n".join([*head_rows(fleet), *rows, "end", ""])


def report_faults(report, fleet, values):
    """What of a report is not true of a fleet and its measures."""
    rows = report.splitlines()
    expected = head_rows(fleet)
    if rows[:len(expected)] != expected or rows[-1:] != ["end"] or len(rows) != len(expected) + len(values) + 1:
        yield "the rows before the measures are other ones, or there are more or fewer rows"
    yield from faults(intervals(report), values)


def read(path):
    if path == "-":
        return sys.stdin.read()
    with open(path, encoding="utf-8") as file:
        return file.read()


def main(path, report=None):
    fleet = Stations(read(path))
    values = measures(fleet)
    wrong = list(apart(fleet, values)) if fleet.crews.sum() <= MOST_WORDED else []
    if report is None and not wrong:
        print(text_of(fleet, values), end="")
        return
    text = read(report) if report else ""
    wrong += report_faults(text, fleet, values) if report else []
    if wrong:
        raise SystemExit("fleet_rows.py: " + "; ".join(wrong))
    width, label = widest(intervals(text))
    print(f"{len(values)} measures, the widest of {width} last digits: {','.join(label)}")


if __name__ == "__main__":
    if not 2 <= len(sys.argv) <= 3:
        sys.exit(__doc__)
    main(*sys.argv[1:])
