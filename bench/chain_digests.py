#!/usr/bin/env python3
"""Finds what worked_chains wants of a plan, from the plan's text on standard input, in Python's whole numbers.

Prints three digests: of the rates of its chain, of the entries that the elimination leaves, and of the weights of its
words. With an argument every entry and weight is printed as well. It shares no code with the crates.

A digest takes the low and the high end of each entry between different states, row by row, or of each weight. For each
end, what stood before is turned left by 7 of its 64 bits and multiplied by 1,000,003, and the end is added, modulo 2^64.
"""
import csv
import io
import sys

WHOLE = 2**62
FIRST = 2**52
SHARES = 27720


def records(text):
    rows = ([field.strip() for field in row] for row in csv.reader(io.StringIO(text.lstrip("\ufeff"), newline="")))
    for row in rows:
        while row and not row[-1]:
            row.pop()
        if row and row[0] != "note":
            yield row


class Plan:
    """Units, atoms, and for each atom its groups of units in order, as sets of bits."""

    def __init__(self, text):
        rows = list(records(text))
        self.settings = {row[0]: row[1] for row in rows if row[0] in ("line", "rule")}
        units = [row for row in rows if row[0] == "unit"]
        atoms = [row for row in rows if row[0] == "atom"]
        self.unit = {row[1]: n for n, row in enumerate(units)}
        self.service = [int(row[2]) for row in units]
        self.calls = [int(row[2]) for row in atoms]
        self.groups = {row[1]: [] for row in atoms}
        for row in rows:
            if row[0] == "group":
                self.groups[row[1]].append([self.unit[name] for name in row[2:]])
            if row[0] == "prefer":
                self.groups[row[1]] = [[self.unit[name]] for name in row[2:]]
        if self.settings.get("rule", "given") != "given":
            self.by_distance(rows, atoms)
        self.lists = list(self.groups.values())
        self.split = 1 if all(len(group) == 1 for groups in self.lists for group in groups) else SHARES

    def by_distance(self, rows, atoms):
        """The lists of the rules `modified` and `strict`: costs are distances of the mean points of units, in thousandths."""
        point = {row[1]: (int(row[3]), int(row[4])) for row in atoms}
        mean = [[0, 0] for _ in self.service]
        for row in rows:
            if row[0] == "at":
                for axis in (0, 1):
                    mean[self.unit[row[1]]][axis] += int(row[3]) * point[row[2]][axis]
        for row in atoms:
            weight, x, y = self.calls_for(row, atoms)
            own = self.unit[row[5]]
            order = sorted(
                range(len(mean)),
                key=lambda n: (abs(weight * mean[n][0] - 1000 * x) + abs(weight * mean[n][1] - 1000 * y), n != own, n),
            )
            self.groups[row[1]] = [[n] for n in order]

    def calls_for(self, atom, atoms):
        """How much the calls weigh that an atom's list is made for, and the sums of their points. By `strict` they are
        those of its district."""
        if self.settings["rule"] == "modified":
            return 1, int(atom[3]), int(atom[4])
        district = [row for row in atoms if row[5] == atom[5]]
        weights = [int(row[2]) for row in district]
        if not any(weights):
            weights = [1] * len(district)
        return sum(weights), *(sum(weight * int(row[axis]) for weight, row in zip(weights, district)) for axis in (3, 4))

    def takers(self, groups, word):
        """The free units of the first group that has one."""
        for group in groups:
            free = [n for n in group if not word >> n & 1]
            if free:
                return free
        return []


def chain(plan):
    """The rates out of each word, by rank, and the bound on their sums."""
    units = len(plan.service)
    words = sorted(range(2**units), key=lambda word: (bin(word).count("1"), word))
    rank = {word: place for place, word in enumerate(words)}
    rates = []
    for word in words:
        row = {}
        for calls, groups in zip(plan.calls, plan.lists):
            takers = plan.takers(groups, word)
            for n in takers:
                to = rank[word | 1 << n]
                row[to] = row.get(to, 0) + calls * (plan.split // len(takers))
        for n in range(units):
            if word >> n & 1:
                row[rank[word & ~(1 << n)]] = plan.split * plan.service[n]
        rates.append({to: rate for to, rate in row.items() if rate})
    return rates, plan.split * (sum(plan.calls) + sum(plan.service))


def ceiling(a, b):
    return -(-a // b)


def eliminate(entries, caps):
    """Eliminates the states from the last to the second: what comes to one goes on in the proportions in which it is left."""
    for state in range(len(entries) - 1, 0, -1):
        out = {to: ends for to, ends in entries[state].items() if to < state}
        low = sum(lo for lo, _ in out.values())
        high = sum(hi for _, hi in out.values())
        parts = [
            (to, WHOLE * lo // (lo + high - hi) if lo else 0, ceiling(WHOLE * hi, hi + low - lo))
            for to, (lo, hi) in out.items()
        ]
        for i in range(state):
            row = entries[i]
            if state not in row:
                continue
            lo, hi = row[state]
            cap = caps[i]
            for to, part_lo, part_hi in parts:
                if to != i:
                    old = row.get(to, (0, 0))
                    row[to] = (min(old[0] + lo * part_lo // WHOLE, cap), min(old[1] + ceiling(hi * part_hi, WHOLE), cap))


def push_shifting(weights, lo, hi):
    power = 0
    while ceiling(hi, 2**power) > FIRST:
        power += 1
    weights.append((lo, hi))
    weights[:] = [(low >> power, ceiling(high, 2**power)) for low, high in weights]


def weigh(plan, entries):
    """The weights of the words by rank, and then that of the calls that wait."""
    weights = [(FIRST, FIRST)]
    for state in range(1, len(entries)):
        out = [ends for to, ends in entries[state].items() if to < state]
        into = [entries[i].get(state, (0, 0)) for i in range(state)]
        lo = sum(weight[0] * entry[0] for weight, entry in zip(weights, into))
        hi = sum(weight[1] * entry[1] for weight, entry in zip(weights, into))
        push_shifting(weights, lo // sum(high for _, high in out), ceiling(hi, sum(low for low, _ in out)))
    if plan.settings.get("line", "zero") == "infinite":
        calls, service = sum(plan.calls), sum(plan.service)
        lo, hi = weights[-1]
        push_shifting(weights, calls * lo // (service - calls), ceiling(calls * hi, service - calls))
    return weights


def digest(pairs):
    found = 0
    for pair in pairs:
        for end in pair:
            turned = (found << 7 | found >> 57) % 2**64
            found = (turned * 1_000_003 + end) % 2**64
    return found


def apart(entries):
    """The entries between different states, row by row."""
    for i, row in enumerate(entries):
        for j in range(len(entries)):
            if i != j:
                yield row.get(j, (0, 0))


def main():
    plan = Plan(sys.stdin.read())
    rates, top = chain(plan)
    scale = WHOLE // top
    entries = [{to: (scale * rate, scale * rate) for to, rate in row.items()} for row in rates]
    before = list(apart(entries))
    eliminate(entries, [scale * sum(row.values()) for row in rates])
    left = list(apart(entries))
    weights = weigh(plan, entries)
    if len(sys.argv) > 1:
        print("rates", *before, "left", *left, "weights", *weights, sep="\n")
    print(digest(before), digest(left), digest(weights))


if __name__ == "__main__":
    main()
