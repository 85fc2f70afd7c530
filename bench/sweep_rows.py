#!/usr/bin/env python3
"""Prints what `sweep FILE UNIT MEASURE` has to write of the plan on standard input: sweep_rows.py UNIT MEASURE <FILE

The unit is placed by its records: those that say where it is give way to one, and the plan of that text is taken as any
other. The ends are those of the printed method, in Python's whole numbers. Each printed interval is then held against the
measure itself, found from the balance equations (balance.py), and so is which sites are printed: each that has the least
measure, and for each other one a printed one that is better. The program ends with 1 if that does not hold. It shares no
code with the crates. The plan has to be one that is accepted. Nine units take some minutes for each different set of lists.
"""
import collections
import sys
from fractions import Fraction

from chain_digests import WHOLE, Plan, ceiling, records
from finite_rows import balanced
from replay_rows import MILLION, Model

MEASURES = ("loss", "delay", "interdistrict", "travel")
DIGITS = {"travel": 3}
REFUSED = "refused,1,85\n"
SLACK = Fraction(1, 10**20)

Site = collections.namedtuple("Site", "atom lo hi value")


class Fleet(Plan):
    """A plan, and where its units are, whose district each atom is in, and how long trips take."""

    def __init__(self, text, travel=None):
        super().__init__(text)
        rows = list(records(text))
        place = {name: atom for atom, name in enumerate(self.groups)}
        self.waits = self.settings.get("line", "zero") == "infinite"
        self.district = [self.unit[row[5]] for row in rows if row[0] == "atom"]
        self.located = [[0] * len(place) for _ in self.service]
        self.travel = travel or [[0] * len(place) for _ in place]
        for row in rows:
            if row[0] == "at":
                self.located[self.unit[row[1]]][place[row[2]]] = int(row[3])
            if row[0] == "travel":
                self.travel[place[row[1]]][place[row[2]]] = int(row[3])
        self.rows = [row for row in rows if row[0] != "travel"]

    def placed(self, unit, atom):
        """The plan of the text with this unit wholly at this atom. Trips stay as they are."""
        rows = [row for row in self.rows if row[:2] != ["at", unit]]
        return Fleet("".join(",".join(row) + "\n" for row in [*rows, ["at", unit, atom, "1000"]]), self.travel)

    def mean_travel(self, unit, atom):
        """From where the unit is while it is free, in thousandths of a second."""
        return sum(part * trips[atom] for part, trips in zip(self.located[unit], self.travel) if part)

    def travel_from_calls(self):
        """From the point of a call to that of another, times the rates of both."""
        return sum(one * other * seconds for one, trips in zip(self.calls, self.travel)
                   for other, seconds in zip(self.calls, trips))


class Answers:
    """Which unit answers which calls: the ends of the method, and the masses that balance. Neither depends on where the
    units are but by the lists."""

    def __init__(self, fleet):
        self.fleet = fleet
        self.model = Model(fleet)
        self.pairs = [(unit, atom) for unit in range(len(fleet.service)) for atom in range(len(fleet.calls))]
        self.taken = {pair: self.model.taken(*pair) for pair in self.pairs}
        self.late = [self.model.late(unit) for unit in range(len(fleet.service))]
        self.words, _ = balanced(fleet, 0)
        calls, service = sum(fleet.calls), sum(fleet.service)
        self.waiting = self.words[-1] * calls / (service - calls) if fleet.waits else 0
        self.sent = dict.fromkeys(self.pairs, 0)
        for word, mass in enumerate(self.words):
            for atom, groups in enumerate(fleet.lists):
                takers = fleet.takers(groups, word)
                for unit in takers:
                    self.sent[unit, atom] += mass / len(takers)

    def ends(self, fleet, measure):
        """The ends of a measure if the units are where they are in this plan, in units of its last digit."""
        if measure in ("loss", "delay"):
            if fleet.waits != (measure == "delay"):
                return 0, 0
            lo, hi = self.model.full()
            return MILLION * lo // WHOLE, ceiling(MILLION * hi, WHOLE)
        return self.interdistrict(fleet) if measure == "interdistrict" else self.travel(fleet)

    def interdistrict(self, fleet):
        sums = {True: [0, 0], False: [0, 0]}
        for unit, atom in self.pairs:
            for end, parts in enumerate(zip(self.taken[unit, atom], self.late[unit])):
                sums[fleet.district[atom] == unit][end] += fleet.calls[atom] * sum(parts)
        (lo, hi), (rest_lo, rest_hi) = sums[False], sums[True]
        return (MILLION * lo // (lo + rest_hi) if lo + rest_hi else 0,
                ceiling(MILLION * hi, hi + rest_lo) if hi + rest_lo else 0)

    def travel(self, fleet):
        calls = sum(fleet.calls)
        trips = {pair: fleet.calls[pair[1]] * fleet.mean_travel(*pair) for pair in self.pairs}
        lo, hi = (4096 * sum(self.taken[pair][end] * trips[pair] for pair in self.pairs) for end in (0, 1))
        if fleet.waits:
            late, (full_lo, full_hi) = 4096000 * fleet.travel_from_calls(), self.model.full()
            lo, hi = lo + full_lo * (late // calls), hi + full_hi * ceiling(late, calls)
        longest = 1000 * max(map(max, fleet.travel))
        return min(lo // (4096 * calls * WHOLE), longest), min(ceiling(hi, 4096 * calls * WHOLE), longest)

    def value(self, fleet, measure):
        """The measure itself, in the same units, by Larson's formulas."""
        calls, service = sum(fleet.calls), sum(fleet.service)
        full, mass = self.words[-1] + self.waiting, sum(self.words) + self.waiting
        if measure in ("loss", "delay"):
            return Fraction(MILLION * full / mass) if fleet.waits == (measure == "delay") else Fraction(0)
        late, base = (full, mass) if fleet.waits else (0, mass - full)
        if measure == "interdistrict":
            flows = {(unit, atom): fleet.calls[atom] * (service * sent + fleet.service[unit] * late)
                     for (unit, atom), sent in self.sent.items()}
            outside = sum(flow for (unit, atom), flow in flows.items() if fleet.district[atom] != unit)
            return Fraction(MILLION * outside / sum(flows.values()))
        trips = sum(fleet.calls[pair[1]] * fleet.mean_travel(*pair) * sent for pair, sent in self.sent.items())
        return Fraction((calls * trips + 1000 * late * fleet.travel_from_calls()) / (calls * calls * base))


def sites_of(plan, unit, measure):
    """The unit's sites, one for each atom."""
    known, sites = {}, []
    for atom in plan.groups:
        fleet = plan.placed(unit, atom)
        lists = str(fleet.lists)
        if lists not in known:
            known[lists] = Answers(fleet)
        answers = known[lists]
        sites.append(Site(atom, *answers.ends(fleet, measure), answers.value(fleet, measure)))
    return sites


def end_text(end, measure):
    digits = DIGITS.get(measure, 6)
    return f"{end // 10**digits}.{end % 10**digits:0{digits}}"


def text_of(unit, measure, sites):
    kept = [site for site in sites if not any(other.hi < site.lo for other in sites)]
    rows = ["sweep,1", f"unit,{unit}", f"measure,{measure}"]
    rows += [f"site,{site.atom},{end_text(site.lo, measure)},{end_text(site.hi, measure)}" for site in kept]
    return "\n".join([*rows, f"dropped,{len(sites) - len(kept)}", "end", ""])


def faults(written, sites):
    """What of a written text is not true of the measures themselves."""
    rows = [line.split(",") for line in written.splitlines()]
    kept = {row[1]: [int(end.replace(".", "")) for end in row[2:]] for row in rows if row[0] == "site"}
    dropped = [site for site in sites if site.atom not in kept]
    if ["dropped", str(len(dropped))] not in rows:
        yield f"{len(dropped)} sites are not written"
    least = min(site.value for site in sites)
    best = min((site.value for site in sites if site.atom in kept), default=None)
    for site in sites:
        lo, hi = kept.get(site.atom, (site.lo, site.hi))
        if not lo - SLACK <= site.value <= hi + SLACK:
            yield f"the measure at {site.atom} is {float(site.value)}"
    for site in dropped:
        if site.value <= least + SLACK:
            yield f"{site.atom} has the least measure"
        if best is None or not best + SLACK < site.value:
            yield f"no site that is written is better than {site.atom}"


def wanted(text, unit, measure):
    """What has to be written, and the sites."""
    plan = Fleet(text)
    if unit not in plan.unit:
        return REFUSED, []
    sites = sites_of(plan, unit, measure)
    return text_of(unit, measure, sites), sites


def main(unit, measure):
    if measure not in MEASURES:
        raise SystemExit(f"sweep_rows.py: sites are not compared by {measure}")
    written, sites = wanted(sys.stdin.read(), unit, measure)
    print(written, end="")
    wrong = list(faults(written, sites)) if sites else []
    if wrong:
        raise SystemExit("sweep_rows.py: " + "; ".join(wrong))


if __name__ == "__main__":
    main(*sys.argv[1:])
