#!/usr/bin/env python3
"""Prints what `pairs FILE PERCENT` has to write of the plan on standard input: pair_rows.py PERCENT <FILE

The ends are those of the printed method, in Python's whole numbers. Each pair of ends is then held against the measure
itself, found from the balance equations (balance.py). The program ends with 1 if a measure lies outside its ends. It
shares no code with the crates. Ten units take some minutes.
"""
import itertools
import sys
from fractions import Fraction

from balance import masses
from chain_digests import FIRST, WHOLE, Plan, ceiling, eliminate, push_shifting

MILLION = 10**6
SLACK = Fraction(1, 10**18)


class Pairs:
    """A plan's units and calls, and how many of a hundred calls need two units."""

    def __init__(self, plan, percent):
        if any(len(group) > 1 for groups in plan.lists for group in groups):
            raise SystemExit("pair_rows.py: the plan has a group of more than one unit")
        self.names = list(plan.unit)
        self.service = plan.service
        self.calls = plan.calls
        self.lists = [[group[0] for group in groups] for groups in plan.lists]
        self.percent = percent
        self.words = sorted(range(2 ** len(self.service)), key=lambda word: (word.bit_count(), word))

    def free(self, atom, word):
        """The units of the atom's list that are free, in its order."""
        return [unit for unit in self.lists[atom] if not word >> unit & 1]

    def rates(self):
        """The rates out of each word, by rank, times a hundred."""
        rank = {word: place for place, word in enumerate(self.words)}
        found = []
        for word in self.words:
            row = {}
            for atom, calls in enumerate(self.calls):
                for sent, percent in self.sent(self.free(atom, word)):
                    to = rank[word | sum(1 << unit for unit in sent)]
                    row[to] = row.get(to, 0) + percent * calls
            for unit, rate in enumerate(self.service):
                if word >> unit & 1:
                    row[rank[word ^ 1 << unit]] = 100 * rate
            found.append({to: rate for to, rate in row.items() if rate})
        return found

    def sent(self, free):
        """Which units go to a call of each kind, and how many of a hundred calls are of it."""
        if free:
            yield free[:1], 100 - self.percent
            yield free[:2], self.percent

    def pairs(self):
        return itertools.combinations(range(len(self.names)), 2)

    def has_two_free(self, word):
        return word.bit_count() <= len(self.names) - 2

    def goes(self, atom, word, pair):
        return tuple(sorted(self.free(atom, word)[:2])) == pair


def weights_of(chain):
    """The weights of the words by rank, by the method of the crates."""
    rates = chain.rates()
    scale = WHOLE // (100 * (sum(chain.calls) + sum(chain.service)))
    entries = [{to: (scale * rate, scale * rate) for to, rate in row.items()} for row in rates]
    eliminate(entries, [scale * sum(row.values()) for row in rates])
    weights = [(FIRST, FIRST)]
    for state in range(1, len(entries)):
        out = [ends for to, ends in entries[state].items() if to < state]
        into = [entries[i].get(state, (0, 0)) for i in range(state)]
        lo = sum(weight[0] * entry[0] for weight, entry in zip(weights, into))
        hi = sum(weight[1] * entry[1] for weight, entry in zip(weights, into))
        push_shifting(weights, lo // sum(high for _, high in out), ceiling(hi, sum(low for low, _ in out)))
    return weights


def part(weights, inside, among):
    """The part of some words among others, in units of 2^-62: a flag for each word says that it is one of them."""
    lo = sum(low for (low, _), here in zip(weights, inside) if here)
    hi = sum(high for (_, high), here in zip(weights, inside) if here)
    rest_lo = sum(low for (low, _), here, there in zip(weights, inside, among) if there and not here)
    rest_hi = sum(high for (_, high), here, there in zip(weights, inside, among) if there and not here)
    return (WHOLE * lo // (lo + rest_hi) if lo + rest_hi else 0, ceiling(WHOLE * hi, hi + rest_lo) if hi + rest_lo else 0)


def subjects(chain):
    """Each measure of a set of words, by its label, with a flag for each word."""
    units, full = len(chain.names), len(chain.names)
    yield ("loss",), [word.bit_count() == full for word in chain.words]
    yield ("short",), [word.bit_count() == full - 1 for word in chain.words]
    for unit in range(units):
        yield ("workload", chain.names[unit]), [bool(word >> unit & 1) for word in chain.words]


def printed(chain):
    """Each measure with its ends, in the order of the text."""
    weights = weights_of(chain)
    every, calls = [True] * len(weights), sum(chain.calls)
    for label, inside in subjects(chain):
        lo, hi = part(weights, inside, every)
        yield label, (MILLION * lo // WHOLE, ceiling(MILLION * hi, WHOLE))
    two_free = [chain.has_two_free(word) for word in chain.words]
    for pair in chain.pairs():
        flow = [0, 0]
        for atom, amount in enumerate(chain.calls):
            ends = part(weights, [free and chain.goes(atom, word, pair) for word, free in zip(chain.words, two_free)], two_free)
            flow = [amount * end + before for end, before in zip(ends, flow)]
        lo, hi = MILLION * flow[0] // (calls * WHOLE), ceiling(MILLION * flow[1], calls * WHOLE)
        yield ("pair", *(chain.names[unit] for unit in pair)), (min(lo, MILLION), min(hi, MILLION))


def measured(chain):
    """Each measure itself, in the order of the text."""
    found = masses(chain.rates())
    mass, calls = sum(found), sum(chain.calls)
    for _, inside in subjects(chain):
        yield sum(value for value, here in zip(found, inside) if here) / mass
    two_free = [(word, value) for word, value in zip(chain.words, found) if chain.has_two_free(word)]
    for pair in chain.pairs():
        flow = sum(amount * value for atom, amount in enumerate(chain.calls) for word, value in two_free
                   if chain.goes(atom, word, pair))
        yield flow / (calls * sum(value for _, value in two_free))


def text_of(end):
    return f"{end // MILLION}.{end % MILLION:06}"


def main(percent):
    chain = Pairs(Plan(sys.stdin.read()), percent)
    print("pairs,1", f"percent,{percent}", sep="\n")
    for (label, ends), value in zip(printed(chain), measured(chain), strict=True):
        print(*label, *map(text_of, ends), sep=",")
        if not ends[0] - SLACK <= MILLION * Fraction(value) <= ends[1] + SLACK:
            raise SystemExit(f"pair_rows.py: {','.join(label)} is {float(value)}")
    print("end")


if __name__ == "__main__":
    main(int(sys.argv[1]))
