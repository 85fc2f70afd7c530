"""What the program writes, as a tidy table: reports, comparisons, and the texts of finite, pairs, sweep, replay, reach and
fleet."""
import csv
import io
from dataclasses import astuple, dataclass, fields
from decimal import Decimal, InvalidOperation
from typing import Callable, Sequence

import pandas

from .faults import Fault

SHARE, CALLS, SECONDS = "share", "calls", "seconds"
PER_PERIOD, COUNT, ORDER = "calls per period", "count", "order"
WHOLE_END = "end"


@dataclass(frozen=True)
class Value:
    """A row of the table. An exact value has two equal ends; a row whose value is a word has none."""
    measure: str
    subject: str = ""
    second: str = ""
    low: Decimal | None = None
    high: Decimal | None = None
    unit: str = ""
    word: str = ""


COLUMNS = tuple(field.name for field in fields(Value))

# Of each measure of a text: how many subjects its rows name, and in what unit its ends are.
Measures = dict[str, tuple[int, str]]
SOLVED: Measures = {
    "loss": (0, SHARE), "delay": (0, SHARE), "queue": (0, CALLS), "wait": (0, SECONDS), "workload": (1, SHARE),
    "dispatch": (2, SHARE), "interdistrict": (0, SHARE), "interdistrict-unit": (1, SHARE), "interdistrict-district": (1, SHARE),
    "travel": (0, SECONDS), "travel-atom": (1, SECONDS), "travel-unit": (1, SECONDS), "travel-district": (1, SECONDS),
}
# Of a fleet the subjects are stations.
FLEET: Measures = {name.replace("-unit", "-station"): kind for name, kind in SOLVED.items()} | {"full": (1, SHARE)}
FINITE: Measures = {
    "lost": (0, SHARE), "delayed": (0, SHARE), "busy": (0, SHARE), "queue": (0, CALLS), "wait": (0, SECONDS),
    "workload": (1, SHARE),
}
PAIRS: Measures = {"loss": (0, SHARE), "short": (0, SHARE), "workload": (1, SHARE), "pair": (2, SHARE)}
# Of each share of calls reached in time: how many subjects its rows name.
REACHED = {"region": 0, "all": 0, "at-once": 0, "atom": 1, "unit": 1, "district": 1}
# Of each row with one whole number: its unit.
COUNTS = {
    "units": COUNT, "atoms": COUNT, "plans": COUNT, "places": COUNT, "percent": "percent", "calls": PER_PERIOD,
    "service": PER_PERIOD, "dropped": COUNT, "answered": CALLS, "lost": CALLS, "waiting": CALLS, "period": SECONDS,
    "stations": COUNT, "crews": COUNT, "states": COUNT,
}


def number(text: str) -> Decimal:
    try:
        return Decimal(text)
    except InvalidOperation as error:
        raise ValueError(text) from error


def between(measure: str, subjects: Sequence[str], ends: Sequence[str], unit: str) -> Value:
    """A row with ends, or with the word `none` in their place."""
    first, second = [*subjects, "", ""][:2]
    if list(ends) == ["none"]:
        return Value(measure, first, second, unit=unit, word="none")
    low, high = ends
    return Value(measure, first, second, number(low), number(high), unit)


def counted(measure: str, text: str, unit: str, subject: str = "", second: str = "") -> Value:
    return Value(measure, subject, second, number(text), number(text), unit)


def of_measures(measures: Measures, row: list[str]) -> list[Value]:
    subjects, unit = measures[row[0]]
    return [between(row[0], row[1:1 + subjects], row[1 + subjects:], unit)]


def of_count(row: list[str]) -> list[Value]:
    kind, text = row
    return [counted(kind, text, COUNTS[kind])]


def next_turn(before: list[Value], measure: str, subject: str = "") -> str:
    """The number after that of the last row, if that is of this measure (and subject), else 1."""
    last = before[-1] if before else Value("")
    follows = last.measure == measure and subject in (last.subject, "")
    return str(last.low + 1) if follows and last.low is not None else "1"


def report_row(row: list[str], before: list[Value]) -> list[Value]:
    match row:
        case ["line", word]:
            return [Value("line", word=word)]
        case ["prefer", atom, *units]:
            return [counted("preference", str(place), ORDER, atom, unit) for place, unit in enumerate(units, 1)]
        case ["group", atom, *units]:
            turn = next_turn(before, "preference", atom)
            return [counted("preference", turn, ORDER, atom, unit) for unit in units]
    return of_measures(SOLVED, row) if row[0] in SOLVED else of_count(row)


def fleet_row(row: list[str], _before: list[Value]) -> list[Value]:
    """A row `crews` with a station has that station as its subject; one without speaks of all crews."""
    match row:
        case ["line", word]:
            return [Value("line", word=word)]
        case ["prefer", atom, *stations]:
            return [counted("preference", str(place), ORDER, atom, station) for place, station in enumerate(stations, 1)]
        case ["crews", station, text]:
            return [counted("crews", text, COUNT, station)]
    return of_measures(FLEET, row) if row[0] in FLEET else of_count(row)


def finite_row(row: list[str], _before: list[Value]) -> list[Value]:
    return of_measures(FINITE, row) if row[0] in FINITE else of_count(row)


def pairs_row(row: list[str], _before: list[Value]) -> list[Value]:
    return of_measures(PAIRS, row) if row[0] in PAIRS else of_count(row)


def comparison_row(row: list[str], _before: list[Value]) -> list[Value]:
    """Plans are named by their places in the study, from 1."""
    match row:
        case ["value", measure, place, *ends]:
            return [between(measure, [place], ends, SOLVED[measure][1])]
        case ["verdict", measure, first, second, word]:
            return [Value(measure, first, second, word=word)]
    return of_count(row)


def sweep_row(row: list[str], before: list[Value]) -> list[Value]:
    """The subject of a site is its atom, and the second subject the unit that is moved."""
    match row:
        case ["unit", name]:
            return [Value("unit", name)]
        case ["measure", word]:
            return [Value("measure", word=word)]
        case ["site", atom, *ends]:
            measure = next(value.word for value in before if value.measure == "measure")
            unit = next(value.subject for value in before if value.measure == "unit")
            return [between(measure, [atom, unit], ends, SOLVED[measure][1])]
    return of_count(row)


def replay_row(row: list[str], before: list[Value]) -> list[Value]:
    """A row of what happened and of what the model says gives two: a count of `dispatches` or of `busy` seconds, and the
    model's `dispatch` or `workload`. A send's subject is the record of the call."""
    match row:
        case ["calls", text]:
            return [counted("calls", text, CALLS)]
        case ["send", record, unit]:
            return [counted("send", next_turn(before, "send"), ORDER, record, unit)]
        case ["dispatch", unit, atom, count, *ends]:
            return [counted("dispatches", count, CALLS, unit, atom), between("dispatch", [unit, atom], ends, SHARE)]
        case ["busy", unit, seconds, *ends]:
            return [counted("busy", seconds, SECONDS, unit), between("workload", [unit], ends, SHARE)]
    return of_count(row)


def reach_row(row: list[str], before: list[Value]) -> list[Value]:
    """A row of shares gives one for each number of seconds, which is the second subject."""
    kind, *fields = row
    if kind == "seconds":
        return [counted(kind, limit, SECONDS) for limit in fields]
    subject, ends = fields[0] if REACHED[kind] else "", fields[REACHED[kind]:]
    if ends == ["none"]:
        return [between(kind, [subject], ends, SHARE)]
    limits = [str(value.low) for value in before if value.measure == "seconds"]
    if len(ends) != 2 * len(limits):
        raise ValueError(row)
    return [between(kind, [subject, limit], pair, SHARE) for limit, *pair in zip(limits, ends[0::2], ends[1::2])]


Reader = Callable[[list[str], list[Value]], list[Value]]
READERS: dict[str, Reader] = {
    "report": report_row, "finite": finite_row, "pairs": pairs_row, "study": comparison_row, "sweep": sweep_row,
    "replay": replay_row, "reach": reach_row, "fleet": fleet_row,
}


def kind_of(text: str) -> str:
    """What a text is: the first word of its first row."""
    return text.split("\n", 1)[0].partition(",")[0]


def values(text: str) -> list[Value]:
    """The rows of a whole text of the program."""
    rows = text.splitlines()
    head = rows[0] if rows else ""
    kind, _, version = head.partition(",")
    if kind not in READERS or version != "1":
        raise Fault(f"the text is none that the program writes for a plan: its first row is {head!r}")
    if rows[-1] != WHOLE_END:
        raise Fault("the text is cut short: its last row is not 'end'")
    found: list[Value] = []
    for line, row in enumerate(rows[1:-1], 2):
        try:
            found += READERS[kind](row.split(","), found)
        except (ValueError, KeyError, StopIteration) as error:
            raise Fault(f"line {line} of the text is no row of this kind of text: {row!r}") from error
    return found


def frame(text: str) -> pandas.DataFrame:
    """The table of a text as a data frame. Ends are floating-point numbers, and missing in rows without ends."""
    return frame_of(values(text))


def frame_of(rows: Sequence[Value]) -> pandas.DataFrame:
    table = pandas.DataFrame([astuple(row) for row in rows], columns=list(COLUMNS))
    return table.astype({"low": float, "high": float})


def table_text(rows: Sequence[Value]) -> str:
    """The table as CSV, with each end in the digits of the text."""
    text = io.StringIO()
    writer = csv.writer(text, lineterminator="\n")
    writer.writerow(COLUMNS)
    writer.writerows(astuple(row) for row in rows)
    return text.getvalue()
