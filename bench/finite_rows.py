#!/usr/bin/env python3
"""Prints what `finite FILE PLACES` has to write of the plan on standard input: finite_rows.py PLACES <FILE

The ends are those of the printed method, in Python's whole numbers. Each pair of ends is then held against the measure
itself, found from the balance equations of the chain with so many waiting places (balance.py). The program ends with 1
if a measure lies outside its ends. It shares no code with the crates.
"""
import sys
from fractions import Fraction

from balance import as_decimal, masses
from chain_digests import WHOLE, Plan, ceiling, chain, eliminate, push_shifting, records, weigh

MILLION = 10**6
SLACK = Fraction(1, 10**30)


def weights_of(plan, places):
    """The weights of the words by rank, and then those of the states in which 1, 2 and more calls wait."""
    rates, top = chain(plan)
    scale = WHOLE // top
    entries = [{to: (scale * rate, scale * rate) for to, rate in row.items()} for row in rates]
    eliminate(entries, [scale * sum(row.values()) for row in rates])
    weights = weigh(plan, entries)
    calls, service = sum(plan.calls), sum(plan.service)
    for _ in range(places):
        lo, hi = weights[-1]
        push_shifting(weights, calls * lo // service, ceiling(calls * hi, service))
    return weights


def total(weights, factors=None):
    factors = factors or [1] * len(weights)
    return tuple(sum(factor * weight[end] for factor, weight in zip(factors, weights)) for end in (0, 1))


def share(inside, outside):
    """A part of all, in millionths: first in units of 2^-62, outward both times."""
    (lo, hi), (rest_lo, rest_hi) = total(inside), total(outside)
    part_lo = WHOLE * lo // (lo + rest_hi) if lo + rest_hi else 0
    part_hi = ceiling(WHOLE * hi, hi + rest_lo) if hi + rest_lo else 0
    return MILLION * part_lo // WHOLE, ceiling(MILLION * part_hi, WHOLE)


def quotient(number, divisor, cap):
    lo = number[0] // divisor[1] if divisor[1] else 0
    hi = ceiling(number[1], divisor[0]) if divisor[0] else cap
    return min(lo, cap), min(hi, cap)


def words_of(plan):
    return sorted(range(2 ** len(plan.service)), key=lambda word: (bin(word).count("1"), word))


def printed(plan, places, period):
    """Each measure with its ends, in the order of the text."""
    weights = weights_of(plan, places)
    words, waiting = weights[:-places], weights[-places:]
    calls, service = sum(plan.calls), sum(plan.service)
    queue = total(waiting, range(1, places + 1))
    yield ("lost",), share(waiting[-1:], weights[:-1])
    yield ("delayed",), share(weights[-places - 1:-1], words[:-1] + waiting[-1:])
    yield ("busy",), share(words[-1:] + waiting, words[:-1])
    yield ("queue",), quotient([MILLION * end for end in queue], total(weights), MILLION * places)
    yield ("wait",), quotient([1000 * period * end for end in queue], [calls * end for end in total(weights[:-1])],
                              ceiling(1000 * period * places, service))
    for unit, name in enumerate(plan.unit):
        is_busy = [bool(word >> unit & 1) for word in words_of(plan)]
        yield ("workload", name), share([weight for weight, busy in zip(words, is_busy) if busy] + waiting,
                                        [weight for weight, busy in zip(words, is_busy) if not busy])


def balanced(plan, places):
    """The masses of the words, by their numbers, and of the states in which calls wait.

    The words are solved as if no call waited, and each state of the line has λ / M times the mass before it. That this
    balances in every state, those of the line among them, is seen at the end.
    """
    calls, service = sum(plan.calls), sum(plan.service)
    full = 2 ** len(plan.service) - 1
    rates = [{} for _ in range(full + 1 + places)]
    for word in range(full):
        for amount, groups in zip(plan.calls, plan.lists):
            takers = plan.takers(groups, word)
            for unit in takers:
                to = word | 1 << unit
                rates[word][to] = rates[word].get(to, 0) + Fraction(amount, len(takers))
    for word in range(1, full + 1):
        for unit, rate in enumerate(plan.service):
            if word >> unit & 1:
                rates[word][word ^ 1 << unit] = rate
    for state in range(full, full + places):
        rates[state][state + 1] = calls
        rates[state + 1][state] = service
    found = masses([{to: rate for to, rate in row.items() if to <= full} for row in rates[:full + 1]])
    for _ in range(places):
        found.append(found[-1] * type(found[-1])(calls) / service)
    hold(rates, found)
    return found[:full + 1], found[full + 1:]


def hold(rates, found):
    """Ends the program if a state does not balance."""
    flows = [0] * len(rates)
    for state, row in enumerate(rates):
        for to, rate in row.items():
            flow = found[state] * (rate if isinstance(found[state], Fraction) else as_decimal(rate))
            flows[to] += flow
            flows[state] -= flow
    worst = max(abs(flow) for flow in flows)
    if Fraction(worst) > SLACK * Fraction(sum(found)):
        raise SystemExit(f"finite_rows.py: a balance is off by {float(worst)}")


def measured(plan, places, period):
    """Each measure itself, in the order of the text."""
    words, waiting = balanced(plan, places)
    mass = sum(words) + sum(waiting)
    calls = sum(plan.calls)
    queue = sum(count * mass for count, mass in enumerate(waiting, 1))
    yield waiting[-1] / mass
    yield (words[-1] + sum(waiting[:-1])) / mass
    yield (words[-1] + sum(waiting)) / mass
    yield queue / mass
    yield period * queue / (calls * (mass - waiting[-1]))
    for unit in range(len(plan.service)):
        yield (sum(mass for word, mass in enumerate(words) if word >> unit & 1) + sum(waiting)) / mass


def text_of(ends, digits):
    return ",".join(f"{end // 10**digits}.{end % 10**digits:0{digits}}" for end in ends)


def main(places):
    text = sys.stdin.read()
    plan = Plan(text)
    period = next((int(row[1]) for row in records(text) if row[0] == "period"), 3600)
    print("finite,1", f"places,{places}", sep="\n")
    for (label, ends), value in zip(printed(plan, places, period), measured(plan, places, period), strict=True):
        digits = 3 if label == ("wait",) else 6
        print(*label, text_of(ends, digits), sep=",")
        scaled = 10**digits * Fraction(value)
        if not ends[0] - SLACK * 10**12 <= scaled <= ends[1] + SLACK * 10**12:
            raise SystemExit(f"finite_rows.py: {','.join(label)} is {float(value)}")
    print("end")


if __name__ == "__main__":
    main(int(sys.argv[1]))
