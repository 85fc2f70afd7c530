#!/usr/bin/env python3
"""Prints what `reach FILE SECONDS` has to write of the plan on standard input: reach_rows.py SECONDS <FILE

SECONDS is a number or several with commas between. The ends are those of the printed method, in Python's whole numbers.
Each pair of ends is then held against the share itself, found from the balance equations (balance.py) by asking of each
word, atom and unit whether the trip is in time. The program ends with 1 if a share lies outside its ends. It shares no code
with the crates. The plan has to be one that is accepted, with lists of its own or by `modified`.
"""
import re
import sys
from fractions import Fraction

from balance import as_decimal, masses
from chain_digests import WHOLE, Plan, ceiling, chain, eliminate, records, weigh

MILLION = 10**6
SLACK = Fraction(1, 10**18)
MOST_LIMIT = 100_000
MOST_LIMITS = 16


class Scene(Plan):
    """A plan with its map: who is where, how long each trip takes, and whose district each atom is in."""

    def __init__(self, text):
        super().__init__(text)
        rows = list(records(text))
        atoms = [row for row in rows if row[0] == "atom"]
        self.atom = {row[1]: place for place, row in enumerate(atoms)}
        self.district = [self.unit[row[5]] for row in atoms]
        self.located = [[0] * len(atoms) for _ in self.service]
        self.travel = [[0] * len(atoms) for _ in atoms]
        for row in rows:
            if row[0] == "at":
                self.located[self.unit[row[1]]][self.atom[row[2]]] = int(row[3])
            if row[0] == "travel":
                self.travel[self.atom[row[1]]][self.atom[row[2]]] = int(row[3])
        self.waits = self.settings.get("line", "zero") == "infinite"
        self.words = sorted(range(2 ** len(self.service)), key=lambda word: (word.bit_count(), word))

    def subjects(self):
        """What each row speaks of, in the order of the text: a word, and the place of an atom or a unit."""
        yield from (("region", None), ("all", None), ("at-once", None))
        yield from (("atom", place) for place in range(len(self.calls)))
        yield from (("unit", place) for place in range(len(self.service)))
        yield from (("district", place) for place in range(len(self.service)))

    def district_calls(self, unit):
        return sum(calls for calls, owner in zip(self.calls, self.district) if owner == unit)


def limits_of(word):
    """The limits that an argument says, or none."""
    fields = word.split(",")
    if not all(re.fullmatch("[0-9]{1,6}", field, re.ASCII) for field in fields):
        return None
    limits = [int(field) for field in fields]
    if len(limits) > MOST_LIMITS or max(limits) > MOST_LIMIT or any(a >= b for a, b in zip(limits, limits[1:])):
        return None
    return limits


def total(pairs, factors=None):
    pairs = list(pairs)
    factors = [1] * len(pairs) if factors is None else list(factors)
    return tuple(sum(factor * pair[end] for factor, pair in zip(factors, pairs, strict=True)) for end in (0, 1))


def plus(a, b):
    return a[0] + b[0], a[1] + b[1]


def times(a, b):
    return a[0] * b[0], a[1] * b[1]


def scaled(factor, a):
    return factor * a[0], factor * a[1]


def ratio(a, number, divisor):
    return a[0] * number // divisor, ceiling(a[1] * number, divisor)


def share(unit, a, rest):
    lo = unit * a[0] // (a[0] + rest[1]) if a[0] + rest[1] else 0
    hi = ceiling(unit * a[1], a[1] + rest[0]) if a[1] + rest[0] else 0
    return lo, hi


def quotient(a, divisor, cap):
    lo = a[0] // divisor[1] if divisor[1] else 0
    hi = ceiling(a[1], divisor[0]) if divisor[0] else cap
    return min(lo, cap), min(hi, cap)


class Parts:
    """The parts of the weights: of each atom's answered calls those that a unit takes at once, and those that wait."""

    def __init__(self, scene):
        rates, top = chain(scene)
        scale = WHOLE // top
        entries = [{to: (scale * rate, scale * rate) for to, rate in row.items()} for row in rates]
        eliminate(entries, [scale * sum(row.values()) for row in rates])
        weights = weigh(scene, entries)
        full = len(scene.words) - 1
        words = scene.words + [scene.words[-1]] * (len(weights) - len(scene.words))
        self.full = share(WHOLE, total(weights[full:]), total(weights[:full]))
        self.waiting = self.full if scene.waits else (0, 0)
        self.answered = (WHOLE, WHOLE) if scene.waits else (WHOLE - self.full[1], WHOLE - self.full[0])
        self.help = [ratio(self.waiting, rate, sum(scene.service)) for rate in scene.service]
        base = weights if scene.waits else weights[:full]
        self.taken = [[self.part(scene, words, base, groups, unit) for groups in scene.lists]
                      for unit in range(len(scene.service))]

    @staticmethod
    def part(scene, words, weights, groups, unit):
        taken = []
        for word, _ in zip(words, weights):
            takers = scene.takers(groups, word)
            taken.append(scene.split // len(takers) if unit in takers else 0)
        inside = ratio(total(weights, taken), 1, scene.split)
        rest = ratio(total(weights, [scene.split - count for count in taken]), 1, scene.split)
        return share(WHOLE, inside, rest)


class Timely:
    """The ends of all shares for one limit: mean times, in thousandths, of a map whose trips take 1000 seconds or none."""

    def __init__(self, scene, parts, limit):
        self.scene, self.parts = scene, parts
        self.all = sum(scene.calls)
        self.time = [[1000 if seconds <= limit else 0 for seconds in row] for row in scene.travel]
        self.cap = 1000 * max(max(row) for row in self.time)
        places = range(len(scene.calls))
        self.mean = [[sum(row[k] * self.time[k][j] for k in places) for j in places] for row in scene.located]
        self.late = [sum(scene.calls[i] * self.time[i][j] for i in places) for j in places]

    def trips(self, unit, atoms):
        return total((self.parts.taken[unit][j] for j in atoms), (self.scene.calls[j] * self.mean[unit][j] for j in atoms))

    def late_travel(self, atoms):
        seconds = sum(self.scene.calls[j] * self.late[j] for j in atoms)
        return ratio((seconds, seconds), 4096000, self.all)

    def over_calls(self, atoms, calls):
        at_once = total(self.trips(unit, atoms) for unit in range(len(self.scene.service)))
        waited = times(self.parts.waiting, self.late_travel(atoms))
        whole = 4096 * calls * WHOLE
        return quotient(plus(scaled(4096, at_once), waited), (whole, whole), self.cap)

    def region(self):
        return self.over_calls(range(len(self.scene.calls)), self.all)

    def at_once(self):
        atoms = range(len(self.scene.calls))
        at_once = total(self.trips(unit, atoms) for unit in range(len(self.scene.service)))
        prompt = quotient(at_once, (MILLION * self.all,) * 2, WHOLE)
        lo, hi = times(prompt, self.parts.answered)
        return MILLION * (lo // WHOLE) // WHOLE, ceiling(MILLION * ceiling(hi, WHOLE), WHOLE)

    def atom(self, place):
        units = range(len(self.scene.service))
        at_once = total((self.parts.taken[unit][place] for unit in units), (self.mean[unit][place] for unit in units))
        waited = scaled(1000 * self.late[place], self.parts.waiting)
        return quotient(plus(scaled(self.all, at_once), waited), (self.all * WHOLE,) * 2, self.cap)

    def unit(self, place):
        atoms = range(len(self.scene.calls))
        helped = self.parts.help[place]
        above = plus(scaled(4096, self.trips(place, atoms)), times(helped, self.late_travel(atoms)))
        taken = total((self.parts.taken[place][j] for j in atoms), self.scene.calls)
        return quotient(above, scaled(4096, plus(taken, scaled(self.all, helped))), self.cap)

    def ends(self, word, place):
        if word == "district":
            atoms = [j for j, owner in enumerate(self.scene.district) if owner == place]
            return self.over_calls(atoms, self.scene.district_calls(place))
        if word == "all":
            return self.region() if self.scene.waits else self.at_once()
        if word in ("region", "at-once"):
            return self.region() if word == "region" else self.at_once()
        return self.atom(place) if word == "atom" else self.unit(place)


class Truth:
    """How often a call of each atom goes to each unit at once, and how often a call waits and goes to it, up to one factor."""

    def __init__(self, scene):
        full = 2 ** len(scene.service) - 1
        rates = [{} for _ in range(full + 1)]
        for word in range(full + 1):
            for calls, groups in zip(scene.calls, scene.lists):
                takers = scene.takers(groups, word)
                for unit in takers:
                    to = word | 1 << unit
                    rates[word][to] = rates[word].get(to, 0) + Fraction(calls, len(takers))
            for unit, rate in enumerate(scene.service):
                if word >> unit & 1:
                    rates[word][word ^ 1 << unit] = rate
        found = masses([{to: rate for to, rate in row.items() if rate} for row in rates])
        self.kind = type(found[0])
        calls, service = sum(scene.calls), sum(scene.service)
        late = found[full] + found[full] * calls / (service - calls) if scene.waits else self.kind(0)
        self.mass = sum(found[:full]) + (late if scene.waits else found[full])
        self.scene = scene
        self.at_once = [[self.kind(0)] * len(scene.calls) for _ in scene.service]
        for word in range(full):
            for atom, groups in enumerate(scene.lists):
                takers = scene.takers(groups, word)
                for unit in takers:
                    self.at_once[unit][atom] += found[word] / len(takers)
        self.later = [late * rate / service for rate in scene.service]

    def number(self, value):
        return value if self.kind is Fraction else as_decimal(value)

    def shares(self, limit):
        """The share that each subject has reached within the limit."""
        scene = self.scene
        places, units = range(len(scene.calls)), range(len(scene.service))
        calls = sum(scene.calls)
        here = [[self.number(Fraction(sum(row[k] for k in places if scene.travel[k][j] <= limit), 1000)) for j in places]
                for row in scene.located]
        there = [self.number(Fraction(sum(scene.calls[i] for i in places if scene.travel[i][j] <= limit), calls)) for j in places]
        answered = {(n, j): self.at_once[n][j] + self.later[n] for n in units for j in places}
        reached = {(n, j): self.at_once[n][j] * here[n][j] + self.later[n] * there[j] for n in units for j in places}
        prompt = sum(scene.calls[j] * self.at_once[n][j] * here[n][j] for n in units for j in places)

        def of(pairs):
            pairs = list(pairs)
            return sum(scene.calls[j] * reached[n, j] for n, j in pairs) / sum(scene.calls[j] * answered[n, j] for n, j in pairs)

        every = [(n, j) for n in units for j in places]
        yield of(every)
        yield sum(scene.calls[j] * reached[n, j] for n, j in every) / (calls * self.mass)
        yield prompt / (calls * self.mass)
        yield from (sum(reached[n, j] for n in units) / sum(answered[n, j] for n in units) for j in places)
        yield from (of((n, j) for j in places) for n in units)
        for unit in units:
            inside = [(n, j) for n, j in every if scene.district[j] == unit]
            yield of(inside) if scene.district_calls(unit) else None


def decimal(end):
    return f"{end // MILLION}.{end % MILLION:06}"


def wanted(text, limits):
    """What has to be written of a plan, and of each row, by its fields, the shares that it has to hold; None if it has none."""
    scene = Scene(text)
    parts, truth = Parts(scene), Truth(scene)
    timely = [Timely(scene, parts, limit) for limit in limits]
    found = zip(*(truth.shares(limit) for limit in limits), strict=True)
    rows = ["reach,1", "seconds," + ",".join(map(str, limits))]
    names = {"atom": list(scene.atom), "unit": list(scene.unit), "district": list(scene.unit)}
    shares = {}
    for (kind, of), values in zip(scene.subjects(), found, strict=True):
        label = (kind,) if of is None else (kind, names[kind][of])
        shares[label] = None if None in values else list(values)
        ends = [decimal(end) for one in timely for end in one.ends(kind, of)] if shares[label] else ["none"]
        rows.append(",".join([*label, *ends]))
    return "\n".join([*rows, "end", ""]), shares


def rows_of(written):
    """The ends of each row of a text, in millionths, by its fields; None for `none`."""
    for line in written.splitlines()[2:-1]:
        fields = line.split(",")
        label = tuple(fields[:1 if fields[0] in ("region", "all", "at-once") else 2])
        ends = fields[len(label):]
        yield label, None if ends == ["none"] else [int(end.replace(".", "")) for end in ends]


def faults(written, shares):
    """What of a written text is not true of the shares themselves, or falls as the limit grows."""
    for label, ends in rows_of(written):
        name, values = ",".join(label), shares[label]
        if ends is None or values is None:
            if ends is not values:
                yield f"{name} has a share, or has none"
            continue
        lows, highs = ends[0::2], ends[1::2]
        for lo, hi, value in zip(lows, highs, values, strict=True):
            if not lo - SLACK <= MILLION * Fraction(value) <= hi + SLACK:
                yield f"{name} is {float(value)}, and not from {lo} to {hi}"
        if any(one != sorted(one) for one in (lows, highs)) or any(a > b and a - b > SLACK for a, b in zip(values, values[1:])):
            yield f"{name} falls"


def main(word):
    limits = limits_of(word)
    if limits is None:
        raise SystemExit("reach_rows.py: no command")
    text, shares = wanted(sys.stdin.read(), limits)
    print(text, end="")
    wrong = list(faults(text, shares))
    if wrong:
        raise SystemExit("reach_rows.py: " + "; ".join(wrong))


if __name__ == "__main__":
    main(sys.argv[1])
