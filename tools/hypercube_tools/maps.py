"""What a plan's text says of the map: where atoms lie, where calls come from, and where units wait."""
import csv
import io
from dataclasses import dataclass

import pandas

from .faults import Fault


@dataclass(frozen=True)
class Map:
    """Atoms with x, y and calls, and units with the mean x and y of where they wait; both by their names."""
    atoms: pandas.DataFrame
    units: pandas.DataFrame


def map_of(text: str) -> Map:
    """The map of a plan that the program accepts."""
    records = [[field.strip(" \t") for field in row] for row in csv.reader(io.StringIO(text.lstrip("\ufeff")))]
    try:
        atoms = pandas.DataFrame([(row[1], int(row[3]), int(row[4]), int(row[2])) for row in of_kind(records, "atom")],
                                 columns=["atom", "x", "y", "calls"]).set_index("atom")
        waits = pandas.DataFrame([(row[1], row[2], int(row[3])) for row in of_kind(records, "at")],
                                 columns=["unit", "atom", "thousandths"])
        waits = waits.join(atoms, on="atom")
    except (ValueError, IndexError) as error:
        raise Fault(f"the plan is not one that the program accepts: {error}") from error
    if atoms.empty or waits.isna().any(axis=None):
        raise Fault("the plan is not one that the program accepts: an atom is missing")
    weighted = waits[["x", "y"]].mul(waits["thousandths"] / 1000, axis=0)
    return Map(atoms, weighted.groupby(waits["unit"], sort=False).sum())


def of_kind(records: list[list[str]], kind: str) -> list[list[str]]:
    return [row for row in records if row and row[0] == kind]
