"""A town as three tables give it: its units, its atoms, and the travel times between its places."""
import math
import pathlib
import re
from dataclasses import dataclass
from fractions import Fraction

from .faults import Fault, Faults
from .sheets import Cell, Sheet, read_sheets

MOST_UNITS = 12
MOST_CREWS = 200
MOST_STATES = 65_536
MOST_ATOMS = 200
MOST_TRAVEL = 100_000
MOST_NAME = 32
DECIMAL = re.compile(r"[0-9]+(\.[0-9]+)?")
SIGNED = re.compile(r"-?[0-9]+(\.[0-9]+)?")
SECONDS_IN = {"seconds": 1, "minutes": 60}


@dataclass(frozen=True)
class Unit:
    """A unit, its service rate per period of the tables, the place where it waits, its class, and its row in the tables; and of
    how many crews it is a station, if it is one."""
    name: str
    rate: Fraction
    station: str
    kind: str
    row: str
    crews: int = 1


@dataclass(frozen=True)
class Atom:
    """An atom, its call rate per period of the tables, its point, its place in the travel table, the unit or station whose
    district it is in ('' if that is left to the tool), the class of its calls, and its row in the tables."""
    name: str
    calls: Fraction
    point: tuple[Fraction, Fraction]
    place: str
    district: str
    kind: str
    row: str


@dataclass(frozen=True)
class Town:
    units: list[Unit]
    atoms: list[Atom]
    # from one place to another
    travel: dict[tuple[str, str], Fraction]


class Columns:
    """The cells of a sheet by the names of its columns."""

    def __init__(self, sheet: Sheet, needed: tuple[str, ...], known: tuple[str, ...], faults: Faults) -> None:
        self.sheet = sheet
        self.faults = faults
        self.at = {name: column for column, name in enumerate(sheet.header()) if name}
        for name in needed:
            if name not in self.at:
                faults.add(f"{sheet.place}, row 1: there is no column {name}")
        for name in self.at:
            if name not in needed + known:
                faults.add(f"{sheet.place}, row 1: the column {name} is not known. Known are {', '.join(needed + known)}")

    def cell(self, row: int, name: str) -> Cell:
        if name in self.at:
            return self.sheet.cell(row, self.at[name])
        return Cell("", f"{self.sheet.row_place(row)}, column {name}")

    def name(self, row: int, name: str) -> str:
        """A cell that has to be a name of a plan."""
        cell = self.cell(row, name)
        fault = name_fault(cell.text)
        if fault:
            self.faults.add(f"{cell.place}: {fault}")
        return cell.text


def name_fault(text: str) -> str:
    """Why a text is no name of a plan, or nothing."""
    if not text:
        return "the name is missing"
    if len(text.encode()) > MOST_NAME:
        return f'"{text}" has more than 32 bytes. Shorten it'
    if any(letter in ',"' or ord(letter) < 32 or ord(letter) == 127 for letter in text):
        return f"{text!r} has a comma, a double quote or a control code. Leave it out"
    return ""


def decimal(cell: Cell, faults: Faults, form: re.Pattern[str] = DECIMAL) -> Fraction | None:
    """A cell that has to be a number with or without decimals, or None for one that is not."""
    if form.fullmatch(cell.text):
        return Fraction(cell.text)
    wanted = "Write digits, with a point before the decimals"
    faults.add(f"{cell.place}: {f'{cell.text!r} is no number' if cell.text else 'a number is missing'}. {wanted}")
    return None


def read_town(path: pathlib.Path, period: int, as_fleet: bool = False) -> Town:
    """The town of the sheets `units`, `atoms` and `travel`. All rates are per `period` seconds. Of a fleet, a row of `units` is
    one station, however many crews it has."""
    sheets = read_sheets(path)
    absent = [name for name in ("units", "atoms", "travel") if name not in sheets]
    if absent:
        raise Fault(*(f"{path}: there is no table {name}" for name in absent))
    faults = Faults()
    town = Town(units_of(sheets["units"], period, as_fleet, faults), atoms_of(sheets["atoms"], faults),
                travel_of(sheets["travel"], faults))
    faults.raise_any()
    return town


def units_of(sheet: Sheet, period: int, as_fleet: bool, faults: Faults) -> list[Unit]:
    """The units of a sheet. A row that says so many crews gives as many units, numbered from 1, or of a fleet one station."""
    columns = Columns(sheet, ("unit", "station"), ("rate", "minutes", "crews", "class", "note"), faults)
    units = [unit for row in sheet.full_rows() for unit in units_of_row(columns, row, period, as_fleet)]
    if not 1 <= len(units) <= MOST_UNITS:
        limit = "stations. A fleet" if as_fleet else "units. A plan"
        faults.add(f"{sheet.place}: there are {len(units)} {limit} has 1 to {MOST_UNITS}")
    if as_fleet:
        check_crews(sheet, units, faults)
    check_differ([Cell(unit.name, unit.row) for unit in units], faults)
    return units


def check_crews(sheet: Sheet, units: list[Unit], faults: Faults) -> None:
    """The crews of a fleet are within its limits."""
    crews, states = sum(unit.crews for unit in units), math.prod(unit.crews + 1 for unit in units)
    if crews > MOST_CREWS:
        faults.add(f"{sheet.place}: there are {crews} crews. A fleet has at most {MOST_CREWS}")
    if states > MOST_STATES:
        faults.add(f"{sheet.place}: there are {states} states, which are the product, over the stations, of their crews and one. "
                   f"A fleet has at most {MOST_STATES}. Join stations that lie close together, or solve a part of the region")


def units_of_row(columns: Columns, row: int, period: int, as_fleet: bool) -> list[Unit]:
    name, station = columns.name(row, "unit"), columns.name(row, "station")
    rate, kind = service_rate(columns, row, period), columns.cell(row, "class").text
    cell = columns.cell(row, "crews")
    crews = decimal(cell, columns.faults) if cell.text else Fraction(1)
    if crews is None:
        return []
    most = MOST_CREWS if as_fleet else MOST_UNITS
    if crews.denominator != 1 or not 1 <= crews <= most:
        columns.faults.add(f"{cell.place}: a station has 1 to {most} crews")
        return []
    if as_fleet:
        return [Unit(name, rate, station, kind, columns.sheet.row_place(row), int(crews))]
    names = [name] if crews == 1 else [f"{name} {number}" for number in range(1, int(crews) + 1)]
    if len(names[-1].encode()) > MOST_NAME:
        columns.faults.add(f'{cell.place}: "{names[-1]}" has more than 32 bytes. Shorten the name of the unit')
    return [Unit(each, rate, station, kind, columns.sheet.row_place(row)) for each in names]


def service_rate(columns: Columns, row: int, period: int) -> Fraction:
    """How many calls a busy unit serves in a period: as it stands, or by the minutes that a call takes."""
    rate, minutes = columns.cell(row, "rate"), columns.cell(row, "minutes")
    if bool(rate.text) == bool(minutes.text):
        columns.faults.add(f"{rate.place}: give the rate or the minutes that a call takes, and not both")
        return Fraction(1)
    cell = rate if rate.text else minutes
    value = decimal(cell, columns.faults)
    if value == 0:
        columns.faults.add(f"{cell.place}: a number above 0 is needed")
    if not value:
        return Fraction(1)
    return value if rate.text else Fraction(period, 60) / value


def atoms_of(sheet: Sheet, faults: Faults) -> list[Atom]:
    columns = Columns(sheet, ("atom", "calls"), ("x", "y", "place", "district", "class", "note"), faults)
    atoms = [atom_of_row(columns, row) for row in sheet.full_rows()]
    if not 1 <= len(atoms) <= MOST_ATOMS:
        faults.add(f"{sheet.place}: there are {len(atoms)} atoms. A plan has 1 to {MOST_ATOMS}")
    if atoms and not faults.messages and not any(atom.calls for atom in atoms):
        faults.add(f"{sheet.place}: no atom has calls")
    check_differ([Cell(atom.name, atom.row) for atom in atoms], faults)
    return atoms


def atom_of_row(columns: Columns, row: int) -> Atom:
    name = columns.name(row, "atom")
    x, y = (coordinate(columns, row, axis) for axis in ("x", "y"))
    place = columns.cell(row, "place").text or name
    calls = decimal(columns.cell(row, "calls"), columns.faults) or Fraction(0)
    district, kind = columns.cell(row, "district").text, columns.cell(row, "class").text
    return Atom(name, calls, (x, y), place, district, kind, columns.sheet.row_place(row))


def coordinate(columns: Columns, row: int, axis: str) -> Fraction:
    """0 in a table without such a column."""
    if axis not in columns.at:
        return Fraction(0)
    return decimal(columns.cell(row, axis), columns.faults, SIGNED) or Fraction(0)


def check_differ(cells: list[Cell], faults: Faults) -> None:
    first: dict[str, str] = {}
    for cell in cells:
        if first.setdefault(cell.text, cell.place) != cell.place:
            faults.add(f'{cell.place}: the name "{cell.text}" stands in {first[cell.text]} too')


def travel_of(sheet: Sheet, faults: Faults) -> dict[tuple[str, str], Fraction]:
    """The seconds from the place of a row to the place of a column, for every two places of the square."""
    corner = sheet.cell(0, 0) if sheet.rows and sheet.rows[0] else Cell("", f"{sheet.place}, row 1, column 1")
    if corner.text.lower() not in SECONDS_IN:
        faults.add(f"{corner.place}: write seconds or minutes there, which is what the table is in")
        return {}
    factor = SECONDS_IN[corner.text.lower()]
    ends = {column: Cell(name.strip(), f"{sheet.row_place(0)}, column {column + 1}")
            for column, name in enumerate(sheet.rows[0]) if column and name.strip()}
    starts = {row: Cell(sheet.cell(row, 0).text, f"{sheet.row_place(row)}, column 1") for row in sheet.full_rows()}
    check_differ(list(ends.values()), faults)
    check_differ(list(starts.values()), faults)
    check_square(list(ends.values()), list(starts.values()), faults)
    return {(start.text, end.text): trip(sheet.cell(row, column), factor, faults)
            for row, start in starts.items() for column, end in ends.items()}


def check_square(ends: list[Cell], starts: list[Cell], faults: Faults) -> None:
    """The same places stand in the first row and in the first column."""
    in_row, in_column = ({cell.text for cell in cells} for cells in (ends, starts))
    for cell in starts:
        if cell.text not in in_row:
            faults.add(f'{cell.place}: "{cell.text}" has a row and no column')
    for cell in ends:
        if cell.text not in in_column:
            faults.add(f'{cell.place}: "{cell.text}" has a column and no row')


def trip(cell: Cell, factor: int, faults: Faults) -> Fraction:
    seconds = (decimal(cell, faults) or Fraction(0)) * factor
    if seconds > MOST_TRAVEL:
        faults.add(f"{cell.place}: a trip takes at most {MOST_TRAVEL} seconds")
    return seconds
