#!/usr/bin/env python3
"""Prints what `replay FILE DAY` has to write: replay_rows.py FILE DAY

The day is played from the rules themselves: before each record the units that are busy and the calls that wait are
counted over all earlier records (a long day, of more than a thousand records, is played with lists that are kept up to
date; a short one in both ways, which have to agree). The model's ends are those of the printed method, in Python's whole
numbers. It shares no code with the crates. The plan has to be one that is accepted.
"""
import collections
import csv
import sys

from chain_digests import WHOLE, Plan, ceiling, chain, eliminate, weigh

MILLION = 10**6
MOST_BYTES = 4_194_304
MOST_RECORDS = 50_000
MOST_COUNTED = 1_000
MARK = b"\xef\xbb\xbf"


class Refused(Exception):
    """The number of a refusal and its argument."""


Event = collections.namedtuple("Event", "at second free who")
Send = collections.namedtuple("Send", "at call unit")


def rows_of(text):
    """The rows of comma-separated values, cleaned, with their numbers: an empty line is no row."""
    while text.startswith(MARK):
        text = text[len(MARK):]
    csv.field_size_limit(MOST_BYTES + 1)
    lines = text.decode("latin-1").replace("\r\n", "\n").replace("\r", "\n").splitlines(keepends=True)
    number = 0
    for row in csv.reader(lines):
        if not row:
            continue
        number += 1
        fields = [field.strip(" \t") for field in row]
        while fields and not fields[-1]:
            fields.pop()
        yield number, [field.encode("latin-1") for field in fields]


def day_of(plan, text):
    """The calls and frees of a day, or the first refusal."""
    if len(text) > MOST_BYTES:
        raise Refused(90, len(text))
    atoms = {name.encode(): place for place, name in enumerate(plan.groups)}
    units = {name.encode(): place for place, name in enumerate(plan.unit)}
    day, latest = [], 0
    for at, fields in rows_of(text):
        if at > MOST_RECORDS:
            raise Refused(91, at)
        if not fields or fields[0] == b"note":
            continue
        if fields[0] not in (b"call", b"free") or len(fields) != 3 or not is_number(fields[1]):
            raise Refused(92, at)
        who = (units if fields[0] == b"free" else atoms).get(fields[2])
        if who is None:
            raise Refused(93, at)
        if int(fields[1]) < latest:
            raise Refused(94, at)
        latest = int(fields[1])
        day.append(Event(at, latest, fields[0] == b"free", who))
    return day


def is_number(field):
    return 1 <= len(field) <= 9 and field.isdigit()


def taker(plan, atom, word):
    """The free unit that stands first in the atom's list."""
    return next((unit for group in plan.lists[atom] for unit in group if not word >> unit & 1), None)


def sends_by_counting(plan, day):
    """The sends by the rules as they are said, each counted over all earlier records."""
    waits = plan.settings.get("line", "zero") == "infinite"
    sends = []
    for place, event in enumerate(day):
        earlier = day[:place]
        word = 0
        for unit in range(len(plan.service)):
            sent = sum(send.unit == unit for send in sends)
            freed = sum(one.free and one.who == unit for one in earlier)
            word |= (sent > freed) << unit
        if not event.free:
            unit = taker(plan, event.who, word)
            if unit is not None:
                sends.append(Send(event.at, event.at, unit))
        elif not word >> event.who & 1:
            raise Refused(95, event.at)
        elif waits:
            called = {send.call for send in sends}
            waiting = [one.at for one in earlier if not one.free and one.at not in called]
            if waiting:
                sends.append(Send(event.at, waiting[0], event.who))
    return sends


def sends_by_queue(plan, day):
    """The sends by the word of the busy units and the calls that wait."""
    waits = plan.settings.get("line", "zero") == "infinite"
    sends, waiting, word = [], collections.deque(), 0
    for event in day:
        if not event.free:
            unit = taker(plan, event.who, word)
            if unit is not None:
                sends.append(Send(event.at, event.at, unit))
                word |= 1 << unit
            elif waits:
                waiting.append(event.at)
        elif not word >> event.who & 1:
            raise Refused(95, event.at)
        elif waiting:
            sends.append(Send(event.at, waiting.popleft(), event.who))
        else:
            word &= ~(1 << event.who)
    return sends


def sends_of(plan, day):
    if len(day) > MOST_COUNTED:
        return sends_by_queue(plan, day)
    found = []
    for play in (sends_by_counting, sends_by_queue):
        try:
            found.append(play(plan, day))
        except Refused as refusal:
            found.append(refusal.args)
    if found[0] != found[1]:
        raise SystemExit("replay_rows.py: the two ways of playing a day differ")
    if isinstance(found[0], tuple):
        raise Refused(*found[0])
    return found[0]


def seconds_busy(plan, day, sends):
    """The seconds between each record and the next for which each unit is busy."""
    begun = {send.at: send.unit for send in sends}
    busy, seconds = [0] * len(plan.service), [0] * len(plan.service)
    for event, after in zip(day, day[1:]):
        if event.free:
            busy[event.who] -= 1
        if event.at in begun:
            busy[begun[event.at]] += 1
        for unit, count in enumerate(busy):
            seconds[unit] += count * (after.second - event.second)
    return seconds


class Model:
    """The plan's weights, and the ends of its dispatches and workloads by the printed method."""

    def __init__(self, plan):
        rates, top = chain(plan)
        scale = WHOLE // top
        entries = [{to: (scale * rate, scale * rate) for to, rate in row.items()} for row in rates]
        eliminate(entries, [scale * sum(row.values()) for row in rates])
        self.plan = plan
        self.words = sorted(range(2 ** len(plan.service)), key=lambda word: (word.bit_count(), word))
        self.weights = weigh(plan, entries)
        self.waits = len(self.weights) > len(self.words)

    def sum(self, factors):
        """The sum of the weights of the words, each times its factor, and of that of the calls that wait."""
        return tuple(sum(factor * weight[end] for factor, weight in zip(factors, self.weights)) for end in (0, 1))

    def part(self, inside, outside):
        """A part, in units of 2^-62, of the sum of the first in the sum of both."""
        (lo, hi), (rest_lo, rest_hi) = inside, outside
        return WHOLE * lo // (lo + rest_hi) if lo + rest_hi else 0, ceiling(WHOLE * hi, hi + rest_lo) if hi + rest_lo else 0

    def of(self, members, among):
        """The part of the members of a set in a larger one."""
        return self.part(self.sum(members), self.sum([all_of - one for one, all_of in zip(members, among)]))

    def workload(self, unit):
        lo, hi = self.of([word >> unit & 1 for word in self.words] + [1], [1] * len(self.weights))
        return MILLION * lo // WHOLE, ceiling(MILLION * hi, WHOLE)

    def taken(self, unit, atom):
        """The part of the words in which the unit is sent to the atom, by its share among the takers, in units of 2^-62."""
        plan = self.plan
        shares = []
        for word in self.words:
            takers = plan.takers(plan.lists[atom], word)
            shares.append(plan.split // len(takers) if unit in takers else 0)
        among = [plan.split] * len(self.words) + [plan.split]
        if not self.waits:
            among[len(self.words) - 1] = 0
        inside = self.sum(shares)
        outside = self.sum([all_of - share for share, all_of in zip(shares + [0], among)])
        inside = inside[0] // plan.split, ceiling(inside[1], plan.split)
        outside = outside[0] // plan.split, ceiling(outside[1], plan.split)
        return self.part(inside, outside)

    def full(self):
        """The part of the full word and of the calls that wait."""
        return self.of([0] * (len(self.words) - 1) + [1, 1], [1] * len(self.weights))

    def late(self, unit):
        """The part of the calls that wait which the unit takes."""
        if not self.waits:
            return 0, 0
        rate, service, full = self.plan.service[unit], sum(self.plan.service), self.full()
        return rate * full[0] // service, ceiling(rate * full[1], service)

    def dispatch(self, unit, atom):
        calls, found = sum(self.plan.calls), zip(self.taken(unit, atom), self.late(unit))
        lo, hi = (self.plan.calls[atom] * sum(ends) for ends in found)
        return min(MILLION * lo // (calls * WHOLE), MILLION), min(ceiling(MILLION * hi, calls * WHOLE), MILLION)


def text_of(ends):
    return ",".join(f"{end // MILLION}.{end % MILLION:06}" for end in ends)


def rows(plan, day):
    """The rows of the text."""
    sends = sends_of(plan, day)
    calls = {event.at: event.who for event in day if not event.free}
    units, atoms, model = list(plan.unit), list(plan.groups), Model(plan)
    yield from ("replay,1", f"calls,{len(calls)}", f"answered,{len(sends)}")
    yield f"{'waiting' if model.waits else 'lost'},{len(calls) - len(sends)}"
    yield from (f"send,{send.call},{units[send.unit]}" for send in sends)
    counts = collections.Counter((send.unit, calls[send.call]) for send in sends)
    for unit, name in enumerate(units):
        for atom, other in enumerate(atoms):
            yield f"dispatch,{name},{other},{counts[unit, atom]},{text_of(model.dispatch(unit, atom))}"
    for unit, seconds in enumerate(seconds_busy(plan, day, sends)):
        yield f"busy,{units[unit]},{seconds},{text_of(model.workload(unit))}"
    yield "end"


def main(file, name):
    with open(file, encoding="utf-8") as text:
        plan = Plan(text.read())
    with open(name, "rb") as text:
        day = text.read(MOST_BYTES + 1)
    try:
        print("\n".join(rows(plan, day_of(plan, day))))
    except Refused as refusal:
        print("refused,2", *refusal.args, sep=",")


if __name__ == "__main__":
    main(*sys.argv[1:])
