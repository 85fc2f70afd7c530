"""Tables as planners keep them: the sheets of a workbook, or the CSV files of a folder."""
import csv
import io
import pathlib
import zipfile
from dataclasses import dataclass
from decimal import Decimal
from typing import Iterator

import openpyxl
from openpyxl.utils.exceptions import InvalidFileException

from .faults import Fault

DELIMITERS = (",", ";", "\t")


@dataclass(frozen=True)
class Cell:
    """The text of a cell, and where it stands, as a spreadsheet counts."""
    text: str
    place: str


@dataclass(frozen=True)
class Sheet:
    """A table with its first row as the header."""
    place: str
    rows: list[list[str]]

    def header(self) -> list[str]:
        return [name.strip().lower() for name in self.rows[0]] if self.rows else []

    def row_place(self, row: int) -> str:
        return f"{self.place}, row {row + 1}"

    def cell(self, row: int, column: int) -> Cell:
        """The cell in this row and column, both counted from 0."""
        fields = self.rows[row]
        text = fields[column].strip() if column < len(fields) else ""
        name = self.rows[0][column].strip() if column < len(self.rows[0]) else ""
        return Cell(text, f"{self.row_place(row)}, column {name or column + 1}")

    def full_rows(self) -> Iterator[int]:
        """The rows below the header that are not empty."""
        return (row for row in range(1, len(self.rows)) if any(field.strip() for field in self.rows[row]))


def read_sheets(path: pathlib.Path) -> dict[str, Sheet]:
    """The sheets of a workbook (.xlsx), or the .csv files of a folder, by their names in lower case."""
    if path.is_dir():
        files = sorted(path.glob("*.csv"))
        return {file.stem.lower(): Sheet(str(file), csv_rows(file)) for file in files}
    if path.suffix.lower() == ".xlsx":
        return workbook_sheets(path)
    raise Fault(f"{path} is neither a folder of CSV files nor a workbook (.xlsx)")


def workbook_sheets(path: pathlib.Path) -> dict[str, Sheet]:
    try:
        book = openpyxl.load_workbook(path, data_only=True)
    except (OSError, InvalidFileException, zipfile.BadZipFile, KeyError) as error:
        raise Fault(f"{path} cannot be read as a workbook: {error}") from error
    return {sheet.title.strip().lower(): Sheet(f"{path}, sheet {sheet.title}", sheet_rows(sheet)) for sheet in book.worksheets}


def sheet_rows(sheet: openpyxl.worksheet.worksheet.Worksheet) -> list[list[str]]:
    return [[cell_text(value) for value in row] for row in sheet.iter_rows(values_only=True)]


def cell_text(value: object) -> str:
    """What a spreadsheet shows of a value: of a number, its first fifteen digits."""
    if value is None:
        return ""
    if isinstance(value, float):
        return plain_digits(f"{value:.15g}")
    return str(value)


def plain_digits(text: str) -> str:
    digits = format(Decimal(text), "f")
    return digits.rstrip("0").rstrip(".") if "." in digits else digits


def csv_rows(path: pathlib.Path) -> list[list[str]]:
    """The rows of a CSV file with commas, semicolons or tabs. With the last two, a decimal comma is read as a point."""
    try:
        text = path.read_bytes().decode("utf-8-sig")
    except OSError as error:
        raise Fault(f"{path} cannot be read: {error.strerror}") from error
    except UnicodeDecodeError as error:
        line = error.object[:error.start].count(b"\n") + 1
        raise Fault(f"{path}, row {line}: a letter is not UTF-8. Save the table as 'CSV UTF-8'") from error
    header = text.split("\n", 1)[0]
    delimiter = max(DELIMITERS, key=header.count)
    reader = csv.reader(io.StringIO(text, newline=""), delimiter=delimiter)
    try:
        rows = list(reader)
    except csv.Error as error:
        raise Fault(f"{path}, line {reader.line_num}: this is no CSV: {error}") from error
    return rows if delimiter == "," else [[with_point(field) for field in row] for row in rows]


def with_point(field: str) -> str:
    """A number with a decimal comma, with a point."""
    whole, comma, part = field.strip().partition(",")
    return f"{whole}.{part}" if comma and whole.isdigit() and part.isdigit() else field
