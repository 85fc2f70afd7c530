"""Studies of any number of plans, run by GNU parallel, which may spread them over several hosts.

The folder of a study holds

    plans.csv     the plans in their order, with a checksum of each, and the command that each is run with
    joblog        what GNU parallel writes of each run
    texts/        what the program wrote of each plan, by its number
    table.csv     one tidy table of all plans, made at the end
    ranks.csv     where each plan stands by each measure of the region
"""
import csv
import hashlib
import os
import pathlib
import shutil
import subprocess
import sys
from dataclasses import dataclass
from typing import Iterable, Sequence

import pandas

from .faults import Fault, Faults
from .ranks import ranks
from .texts import COLUMNS, Value, frame_of, values

# What a joblog has in a line, and where the number, the status and the signal stand.
JOB_FIELDS, NUMBER, STATUS, SIGNAL = 9, 0, 6, 7
# What the program says by its status, and how its text then begins.
REASONS = {1: ("usage", "usage:"), 2: ("refused", "refused,"), 3: ("too wide", "toowide,"), 4: ("file missing", ""),
           5: ("read failed", ""), 6: ("write failed", ""), 7: ("no memory", "")}
NO_WHOLE_TEXT = "no whole text"
# GNU parallel asks SHELL for the shell of a run, also of one on a host, and without one the run ends with status 0 and no text.
SHELL = {"PARALLEL_SHELL": "/bin/sh"}


@dataclass(frozen=True)
class Study:
    """A folder, its plans, the words of the program before and after the plan, and further words for GNU parallel."""
    folder: pathlib.Path
    plans: list[pathlib.Path]
    program: list[str]
    options: list[str]
    parallel: list[str]

    @property
    def joblog(self) -> pathlib.Path:
        return self.folder / "joblog"

    def text_of(self, number: int) -> str:
        """What the program wrote of a plan. It is empty if there is none."""
        text = self.folder / "texts" / str(number)
        return text.read_text("utf-8", errors="replace") if text.exists() else ""


def run(study: Study) -> pandas.DataFrame:
    """Runs the plans that have not been run, and writes the table of all of them."""
    if not shutil.which("parallel"):
        raise Fault("GNU parallel is not installed. On Debian: apt-get install parallel")
    begin(study)
    run_rest(study)
    return finish(study)


def begin(study: Study) -> None:
    """Writes down what the study is, or finds that it goes on as it began."""
    wanted = [["command", " ".join([*study.program, "PLAN", *study.options])],
              *([str(plan), checksum(plan)] for plan in study.plans)]
    record = study.folder / "plans.csv"
    if not record.exists():
        (study.folder / "texts").mkdir(parents=True, exist_ok=True)
        whole = record.with_suffix(".new")
        with whole.open("w", newline="") as file:
            csv.writer(file, lineterminator="\n").writerows(wanted)
        whole.rename(record)
        return
    with record.open(newline="") as file:
        begun = list(csv.reader(file))
    if begun != wanted:
        raise Fault(*differences(study.folder, begun, wanted))


def differences(folder: pathlib.Path, begun: list[list[str]], wanted: list[list[str]]) -> Iterable[str]:
    """Why a study cannot go on in its folder."""
    faults = Faults()
    if begun[0] != wanted[0]:
        faults.add(f"{folder} was begun with the command {begun[0][1]}")
    if [row[0] for row in begun] != [row[0] for row in wanted]:
        faults.add(f"{folder} was begun with other plans")
    changed = [new[0] for old, new in zip(begun[1:], wanted[1:]) if old[0] == new[0] and old[1] != new[1]]
    for plan in changed:
        faults.add(f"{plan} has changed since the study in {folder} began")
    return [*faults.messages, "Take another folder"]


def checksum(plan: pathlib.Path) -> str:
    try:
        return hashlib.sha256(plan.read_bytes()).hexdigest()
    except OSError as error:
        raise Fault(f"{plan} cannot be read: {error.strerror}") from error


def run_rest(study: Study) -> None:
    """GNU parallel goes on after the runs of its joblog, and does again those that failed or were cut off."""
    mend_joblog(study)
    shown = ["--bar"] if sys.stderr.isatty() else []
    words = ["parallel", "--null", *shown, "--joblog", str(study.joblog), "--resume-failed",
             "--results", str(study.folder / "texts" / "{#}"), *study.parallel,
             "--quote", *study.program, "{}", *study.options]
    plans = "".join(f"{plan}\0" for plan in study.plans)
    done = subprocess.run(words, input=plans, text=True, stdout=subprocess.DEVNULL, env={**os.environ, **SHELL}, check=False)
    if done.returncode > 101 or done.returncode < 0:
        raise Fault(f"GNU parallel ended with status {done.returncode}. The same command goes on from here")


def mend_joblog(study: Study) -> None:
    """Takes away a last line that an interrupt cut short, and the runs with status 0 whose text is not whole, which GNU
    parallel then does again."""
    if study.joblog.exists():
        head, *lines = study.joblog.read_text().split("\n")[:-1] or [""]
        kept = [line for line in lines if not is_without_text(study, line)]
        study.joblog.write_text("".join(f"{line}\n" for line in [head, *kept] if line))


def is_without_text(study: Study, line: str) -> bool:
    """Whether a line of the joblog is a run that ended well and has left no whole text."""
    return any(ended == (0, 0) and not solved(study.text_of(number)) for number, ended in endings([line]).items())


def endings(lines: Iterable[str]) -> dict[int, tuple[int, int]]:
    """The status and the signal of the last run of each number, by the lines of a joblog after its first."""
    rows = [line.split("\t") for line in lines]
    return {int(row[NUMBER]): (int(row[STATUS]), int(row[SIGNAL])) for row in rows if len(row) >= JOB_FIELDS}


def solved(text: str) -> list[Value]:
    """The rows of a report, and none if the text is no whole report."""
    try:
        return values(text)
    except Fault:
        return []


def finish(study: Study) -> pandas.DataFrame:
    """The table of all plans, in their order, and the ranks."""
    ended = endings(study.joblog.read_text().splitlines()[1:])
    absent = [number for number in range(1, len(study.plans) + 1) if number not in ended]
    if absent:
        raise Fault(f"{len(absent)} plans have not been run. The same command goes on from here")
    table = pandas.concat([table_of(study, number, plan, ended[number]) for number, plan in enumerate(study.plans, 1)],
                          ignore_index=True)
    table.to_csv(study.folder / "table.csv", index=False, float_format=digits)
    ranks(table).to_csv(study.folder / "ranks.csv", index=False, float_format=digits)
    return table


def digits(value: float) -> str:
    """Up to six decimals, which is what the program writes."""
    return f"{value:.6f}".rstrip("0").rstrip(".")


def table_of(study: Study, number: int, plan: pathlib.Path, ended: tuple[int, int]) -> pandas.DataFrame:
    """The rows of a plan, or one row `failed` with the reason."""
    text = study.text_of(number)
    if ended == (0, 0) and (found := solved(text)):
        rows = frame_of(found)
    else:
        rows = pandas.DataFrame([{**dict.fromkeys(COLUMNS, ""), "measure": "failed", "low": None, "high": None,
                                  "subject": text.partition("\n")[0], "word": reason_of(*ended, text)}])
    rows.insert(0, "plan", str(plan))
    return rows


def reason_of(status: int, signal: int, text: str) -> str:
    """Why a run failed: what the program said, or else the bare status, as of a host that has no program."""
    reason, front = REASONS.get(status, ("", ""))
    if signal:
        return f"signal {signal}"
    if status == 0:
        return NO_WHOLE_TEXT
    return reason if reason and text.startswith(front) else f"status {status}"


def plans_of(paths: Sequence[pathlib.Path]) -> list[pathlib.Path]:
    """The plans that are named, and those of each folder that is named (*.csv), in the order of their names."""
    found = [plan for path in paths for plan in (sorted(path.glob("*.csv")) if path.is_dir() else [path])]
    if not found:
        raise Fault("there is no plan (*.csv)")
    twice = [plan for place, plan in enumerate(found) if plan in found[:place]]
    if twice:
        raise Fault(f"{twice[0]} is named twice")
    return found
