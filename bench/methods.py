#!/usr/bin/env python3
"""Compares the two methods of a built program: methods.py [--times] [--certified SOLVE_TIMES] PROGRAM [PLAN|FOLDER ..]

Each plan is solved by elimination and by certificate. At each measure the two intervals have to meet, and both have to hold the
measure itself, which report_rows.py finds in double precision. The plans are those that are named or lie anywhere in the
folders that are named, as far as `solve` accepts them, the examples, and 200 that are made and varied. Of each kind it prints
how wide the widest intervals are in last digits, and which they are; then each interval of the certificate that is wider than
two. With --times it also prints the seconds of both methods for 10 and 12 units, and the most memory that the certificate had;
elimination takes a minute and more for these. With --certified it also asks the program solve_times of each plan whether it has
a certificate, since the program itself would answer by elimination and say nothing. Ends with 1 if an interval is wrong, or a
plan has no certificate. Runs on Debian's Python with numpy.
"""
import argparse
import collections
import pathlib
import random
import subprocess
import sys
import tempfile

from made_plan import made_plan
from report_rows import faults, intervals, measures

WHOLE = pathlib.Path(__file__).resolve().parent / "whole.py"
EXAMPLES = WHOLE.parent.parent / "examples"
METHODS = ("elimination", "certificate")
MADE = 200
NARROW = 2
RUNS = 5

Try = collections.namedtuple("Try", "kind name text")


def with_rates(rows, service, calls):
    """The rows of a plan with other rates: functions of the old ones."""
    changes = {"unit": service, "atom": calls}
    return [[*row[:2], changes[row[0]](int(row[2])), *row[3:]] if row[0] in changes else row for row in rows]


def times_service(rows, times):
    """As many calls as so many times the service."""
    service = sum(int(row[2]) for row in rows if row[0] == "unit")
    calls = sum(int(row[2]) for row in rows if row[0] == "atom")
    return with_rates(rows, lambda rate: rate, lambda rate: max(1, rate * times * service // calls))


def light(rows, _chance):
    return with_rates(rows, lambda rate: 20 * rate, lambda rate: rate)


def spread(rows, chance):
    return with_rates(rows, lambda _: chance.randint(1, 500), lambda rate: rate * chance.randint(1, 20))


def grouped(rows, chance):
    """Lists of groups in place of those by distance."""
    units = [row[1] for row in rows if row[0] == "unit"]
    found = [["version", "2"]] + [row for row in rows if row[0] not in ("version", "rule")]
    for row in rows:
        if row[0] == "atom":
            order = chance.sample(units, len(units))
            while order:
                size = chance.randint(1, len(order))
                found.append(["group", row[1], *order[:size]])
                del order[:size]
    return found


def waiting(rows, chance):
    """On the infinite line, between a tenth of the service and all but a thousandth of it."""
    rows = [["line", "infinite"] if row[0] == "line" else row for row in rows]
    calls = sum(int(row[2]) for row in rows if row[0] == "atom")
    units = sum(row[0] == "unit" for row in rows)
    load = chance.choice((0.1, 0.5, 0.9, 0.999))
    return with_rates(rows, lambda _: max(1, round(calls / units / load)) + (load > 0.9), lambda rate: rate)


KINDS = {
    "made": lambda rows, _: rows,
    "10 times the service": lambda rows, _: times_service(rows, 10),
    "1000 times the service": lambda rows, _: times_service(rows, 1000),
    "light": light,
    "spread": spread,
    "groups": grouped,
    "groups, 10 times": lambda rows, chance: grouped(times_service(rows, 10), chance),
    "waiting": waiting,
    "groups, waiting": lambda rows, chance: grouped(waiting(rows, chance), chance),
    "spread, waiting": lambda rows, chance: waiting(spread(rows, chance), chance),
}


def made(kind, units, number):
    """A made plan that is varied."""
    rows = [line.split(",") for line in made_plan(units, number)]
    varied = KINDS[kind](rows, random.Random(number))
    return "".join(",".join(map(str, row)) + "\n" for row in varied)


def made_tries():
    for number in range(MADE):
        kind, units = list(KINDS)[number % len(KINDS)], 2 + number // len(KINDS) % 9
        yield Try(kind, f"{units} units, {number}", made(kind, units, number))


def named_tries(paths):
    for path in paths:
        for file in sorted(path.rglob("*.csv")) if path.is_dir() else [path]:
            yield Try("named", str(file), file.read_bytes().decode("utf-8", "replace"))


def solve(program, folder, text, method):
    """The report of a plan, or nothing if it is refused."""
    (folder / "plan.csv").write_text(text, encoding="utf-8")
    done = subprocess.run([program, "solve", "plan.csv", "--method", method], cwd=folder, capture_output=True, check=False)
    if done.returncode not in (0, 2):
        raise SystemExit(f"methods.py: status {done.returncode} of the method {method}: {done.stdout.decode()}")
    return done.stdout.decode() if done.returncode == 0 else ""


def compared(reports, text):
    """What is wrong with the two reports of a plan, and the intervals of each."""
    by, other = (intervals(report) for report in reports)
    values = measures(text)
    wrong = [f"{method}: {fault}" for method, found in zip(METHODS, (by, other)) for fault in faults(found, values)]
    for label in by.keys() & other.keys():
        if by[label] and other[label] and max(by[label][0], other[label][0]) > min(by[label][1], other[label][1]):
            wrong.append(f"{','.join(label)} is {by[label]} and {other[label]}")
    heads = [[line for line in report.splitlines() if "." not in line.split(",")[-1]] for report in reports]
    if heads[0] != heads[1]:
        wrong.append("the rows without ends are other ones")
    return wrong, (by, other)


def widths(found):
    return {label: ends[1] - ends[0] for label, ends in found.items() if ends}


def has_certificate(times, folder):
    """Whether the plan that lies there has a certificate. The program writes the nanoseconds of both methods, and that."""
    done = subprocess.run([times, "certificate", "plan.csv"], cwd=folder, capture_output=True, check=True, text=True)
    return (done.stdout + done.stderr).split()[-1] == "true"


def tally(program, times, folder, tries):
    """Compares all tries. Gives the widths by kind, method, plan and measure, and how many tries went wrong."""
    wide, failed = collections.defaultdict(dict), 0
    for kind, name, text in tries:
        reports = [solve(program, folder, text, method) for method in METHODS]
        if not all(reports):
            failed += any(reports)
            continue
        wrong, found = compared(reports, text)
        if times and not has_certificate(times, folder):
            wrong.append("there is no certificate")
        if wrong:
            failed += 1
            print(f"WRONG: {kind}, {name}: {'; '.join(wrong[:5])}")
        for method, ends in zip(METHODS, found):
            wide[kind, method].update({(name, ",".join(label)): width for label, width in widths(ends).items()})
    return wide, failed


def show(wide):
    for kind in dict.fromkeys(kind for kind, _ in wide):
        plans = len({name for name, _ in wide[kind, METHODS[0]]})
        print(f"{kind}: {plans} plans, {len(wide[kind, METHODS[0]])} measures")
        for method in METHODS:
            (name, label), width = max(wide[kind, method].items(), key=lambda row: row[1])
            print(f"  {method}: the widest of {width} last digits: {label} of {name}")
    over = [(width, *place) for (_, method), rows in wide.items() if method == METHODS[1]
            for place, width in rows.items() if width > NARROW]
    for width, name, label in sorted(over, reverse=True):
        print(f"wider than {NARROW}: {label} of {name}, {width} last digits")


def whole(program, folder, method, runs):
    """The least seconds of so many runs on the plan that lies there, and the megabytes of that run."""
    words = [sys.executable, WHOLE, program, "solve", "plan.csv", "--method", method]
    rows = [subprocess.run(words, cwd=folder, capture_output=True, check=True, text=True).stdout.split() for _ in range(runs)]
    if any(status != "0" for status, _, _ in rows):
        raise SystemExit(f"methods.py: the method {method} ended otherwise than with status 0")
    return min((float(seconds), float(memory)) for _, seconds, memory in rows)


def show_times(program, folder):
    print("units kind                     elimination certificate    part      MB")
    for units in (10, 12):
        for kind in ("made", "10 times the service", "1000 times the service", "light", "spread"):
            (folder / "plan.csv").write_text(made(kind, units, 1), encoding="utf-8")
            (slow, _), (fast, memory) = whole(program, folder, METHODS[0], 1), whole(program, folder, METHODS[1], RUNS)
            print(f"{units:5} {kind:24} {slow:11.3f} {fast:11.4f} {fast / slow:7.4f} {memory:7.1f}", flush=True)


def asked(words):
    parser = argparse.ArgumentParser(description=__doc__, formatter_class=argparse.RawDescriptionHelpFormatter)
    parser.add_argument("--times", action="store_true")
    parser.add_argument("--certified", metavar="SOLVE_TIMES", type=pathlib.Path)
    parser.add_argument("program", type=pathlib.Path)
    parser.add_argument("plans", nargs="*", type=pathlib.Path)
    return parser.parse_args(words)


def main(words):
    given = asked(words)
    program, times = given.program.resolve(), given.certified and given.certified.resolve()
    tries = [*named_tries(given.plans), *(Try("examples", *one[1:]) for one in named_tries([EXAMPLES])), *made_tries()]
    with tempfile.TemporaryDirectory() as name:
        folder = pathlib.Path(name)
        wide, failed = tally(program, times, folder, tries)
        show(wide)
        if given.times:
            show_times(program, folder)
    print(f"methods: {failed} plans wrong")
    return int(failed > 0)


if __name__ == "__main__":
    sys.exit(main(sys.argv[1:]))
