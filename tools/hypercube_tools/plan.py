"""The text of a plan, made from the tables of a town."""
import csv
import io
import math
from dataclasses import dataclass
from fractions import Fraction
from itertools import accumulate
from typing import Iterable, Sequence

from .faults import Fault, Faults
from .rates import WholeRates, whole_rates
from .town import MOST_TRAVEL, Atom, Town, Unit

MOST_POINT = 1_000_000


@dataclass(frozen=True)
class Choices:
    """What the tables leave open: the line, the period of their rates in seconds, the seconds that pass before a unit sets out,
    whether crews of a station go in their order, whether rates may be rounded, and whether the units are stations of a fleet."""
    line: str
    period: int
    turn_out: int
    in_order: bool
    may_round: bool
    as_fleet: bool = False


@dataclass(frozen=True)
class Made:
    """A plan's text, and what the user should know of how it was made."""
    text: str
    remarks: list[str]


def make_plan(town: Town, choices: Choices) -> Made:
    check_places(town)
    rates = whole_rates([atom.calls for atom in town.atoms], [unit.rate for unit in town.units for _ in range(unit.crews)],
                        choices.period, choices.may_round)
    if choices.line == "infinite" and sum(rates.calls) >= sum(rates.service):
        raise Fault(f"on the infinite line calls have to be fewer than service, but there are {sum(rates.calls)} calls and "
                    f"service for {sum(rates.service)} in {rates.period} seconds. Add units, or take the line zero")
    points, origin = whole_points(town.atoms)
    lists = [groups_of(town, atom, choices.in_order or choices.as_fleet) for atom in town.atoms]
    version = 3 if choices.as_fleet else version_of(lists)
    records = [*settings(choices.line, rates, version), *fleet(town, rates, points, lists), *list_records(town, lists),
               *travel_records(town, choices.turn_out)]
    remarks = [period_remark(rates, choices.period), *round_remark(rates), *origin_remark(origin), *seconds_remark(town)]
    return Made(plan_text(records), remarks)


def plan_text(records: Iterable[Sequence[object]]) -> str:
    text = io.StringIO()
    csv.writer(text, lineterminator="\n").writerows(records)
    return text.getvalue()


def check_places(town: Town) -> None:
    """Each station is the place of an atom, each atom has a place in the travel table, and each district is known."""
    faults = Faults()
    known = {name for pair in town.travel for name in pair}
    homes = {atom.place for atom in town.atoms}
    names = {unit.name for unit in town.units} | {unit.station for unit in town.units} | {""}
    for unit in town.units:
        if unit.station not in homes:
            faults.add(f'{unit.row}, column station: "{unit.station}" is the place of no atom. '
                       "Give it a row among the atoms, with 0 calls if none come from there")
    for atom in town.atoms:
        if atom.place not in known:
            faults.add(f'{atom.row}: "{atom.place}" has no row and column in the travel table')
        if atom.district not in names:
            faults.add(f'{atom.row}, column district: "{atom.district}" is neither a unit nor the place of one')
    faults.raise_any()


def version_of(lists: list[list[list[Unit]]]) -> int:
    """Groups of more than one unit need version 2."""
    return 2 if any(len(group) > 1 for groups in lists for group in groups) else 1


def settings(line: str, rates: WholeRates, version: int) -> list[list[object]]:
    return [["version", version], ["line", line], ["period", rates.period]]


def fleet(town: Town, rates: WholeRates, points: list[tuple[int, int]], lists: list[list[list[Unit]]]) -> list[list[object]]:
    first = accumulate((unit.crews for unit in town.units), initial=0)
    units = [["unit", unit.name, rates.service[crew]] for unit, crew in zip(town.units, first)]
    units += [["crews", unit.name, unit.crews] for unit in town.units if unit.crews > 1]
    atoms = [["atom", atom.name, rate, *point, district_of(town, atom, groups)]
             for atom, rate, point, groups in zip(town.atoms, rates.calls, points, lists)]
    first_at = {atom.place: atom.name for atom in reversed(town.atoms)}
    return [*units, *atoms, *(["at", unit.name, first_at[unit.station], 1000] for unit in town.units)]


def district_of(town: Town, atom: Atom, groups: list[list[Unit]]) -> str:
    """The unit that the table names, or the first unit of the station that it names, or the first of the atom's list."""
    named = [unit for unit in town.units if atom.district in (unit.name, unit.station)]
    return (named or groups[0])[0].name


def groups_of(town: Town, atom: Atom, in_order: bool) -> list[list[Unit]]:
    """The units by travel time, those of the class of the atom's calls first. Crews of one station share a group, unless they
    go in order; of stations that are equally far, that of the earlier unit goes first."""
    first = {unit.station: place for place, unit in reversed(list(enumerate(town.units)))}

    def turn(unit: Unit) -> tuple[bool, Fraction, int]:
        return bool(atom.kind) and unit.kind != atom.kind, town.travel[unit.station, atom.place], first[unit.station]

    if in_order:
        return [[unit] for unit in sorted(town.units, key=turn)]
    return [[unit for unit in town.units if turn(unit) == each] for each in sorted(set(map(turn, town.units)))]


def list_records(town: Town, lists: list[list[list[Unit]]]) -> list[list[object]]:
    """One `prefer` record for a list of single units, else a `group` record for each group."""
    records: list[list[object]] = []
    for atom, groups in zip(town.atoms, lists):
        names = [[unit.name for unit in group] for group in groups]
        if all(len(group) == 1 for group in names):
            records.append(["prefer", atom.name, *(group[0] for group in names)])
        else:
            records += [["group", atom.name, *group] for group in names]
    return records


def travel_records(town: Town, turn_out: int) -> list[list[object]]:
    trips = [(start, end, round(town.travel[start.place, end.place]) + turn_out) for start in town.atoms for end in town.atoms]
    longest = max(seconds for _, _, seconds in trips)
    if longest > MOST_TRAVEL:
        raise Fault(f"with the turn-out time a trip takes {longest} seconds. A plan has at most {MOST_TRAVEL}")
    return [["travel", start.name, end.name, seconds] for start, end, seconds in trips]


def whole_points(atoms: list[Atom]) -> tuple[list[tuple[int, int]], tuple[int, int]]:
    """The points as whole numbers from 0 to 1,000,000, and the origin that was subtracted, which is 0, 0 if none was needed."""
    axes = [[atom.point[axis] for atom in atoms] for axis in (0, 1)]
    fits = all(0 <= value <= MOST_POINT for axis in axes for value in axis)
    x, y = (0, 0) if fits else (math.floor(min(axes[0])), math.floor(min(axes[1])))
    points = [(round(atom.point[0] - x), round(atom.point[1] - y)) for atom in atoms]
    if any(value > MOST_POINT for point in points for value in point):
        raise Fault("the atoms lie more than 1,000,000 apart. Give their points in metres")
    if len(set(points)) < len({atom.point for atom in atoms}):
        raise Fault("two atoms have points that are the same if rounded. Give them in metres, not in degrees or kilometres")
    return points, (x, y)


def period_remark(rates: WholeRates, period: int) -> str:
    times = Fraction(rates.period, period)
    longer = f", {times} times the {period} of the tables, so that all rates are whole" if times != 1 else ""
    return f"the period is {rates.period} seconds{longer}; calls {sum(rates.calls)}, service {sum(rates.service)}"


def round_remark(rates: WholeRates) -> list[str]:
    return [f"rates were rounded, by at most {float(rates.change) * 100:.2g} percent"] if rates.change else []


def origin_remark(origin: tuple[int, int]) -> list[str]:
    return [f"{origin[0]} was subtracted from each x and {origin[1]} from each y"] if origin != (0, 0) else []


def seconds_remark(town: Town) -> list[str]:
    odd = any(seconds.denominator != 1 for seconds in town.travel.values())
    return ["travel times were rounded to whole seconds"] if odd else []
