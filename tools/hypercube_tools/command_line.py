"""The command line of the tools."""
import argparse
import os
import pathlib
import sys
from typing import Callable

from .faults import Fault

PERIODS = {"hour": 3600, "day": 86_400, "week": 604_800, "year": 31_536_000}
ENDINGS = (".svg", ".png", ".pdf")
METHODS = ("elimination", "certificate")
# Of each picture: whether it needs a plan's text for the map.
PICTURES = {"workload": False, "dispatch": False, "travel": True, "comparison": False, "sweep": True, "reach": False}


def main(words: list[str]) -> int:
    """Runs the command of these words. The status is 0, or 1 if something is wrong with what was given, or 2 for words that are
    no command, or 130 after an interrupt."""
    asked = parser().parse_args(words)
    try:
        asked.run(asked)
    except Fault as fault:
        for message in fault.messages:
            say(message)
        return 1
    except KeyboardInterrupt:
        say("interrupted")
        return 130
    except BrokenPipeError:
        sys.stdout = open(os.devnull, "w")
        return 1
    except OSError as error:
        say(f"{error.filename}: {error.strerror}")
        return 1
    return 0


def say(text: str) -> None:
    print(f"hypercube-tools: {text}", file=sys.stderr)


def parser() -> argparse.ArgumentParser:
    whole = argparse.ArgumentParser(prog="hypercube-tools", description="Tools around the program hypercube.")
    commands = whole.add_subparsers(required=True, metavar="COMMAND")
    add_plan(commands)
    add_table(commands)
    add_picture(commands)
    add_many(commands)
    return whole


def add(commands: "argparse._SubParsersAction[argparse.ArgumentParser]", name: str, text: str,
        run: Callable[[argparse.Namespace], None]) -> argparse.ArgumentParser:
    command = commands.add_parser(name, help=text, description=text[0].upper() + text[1:] + ".")
    command.set_defaults(run=run)
    return command


def add_plan(commands: "argparse._SubParsersAction[argparse.ArgumentParser]") -> None:
    command = add(commands, "plan", "make a plan of the tables units, atoms and travel", plan)
    command.add_argument("tables", metavar="TABLES", type=pathlib.Path, help="a workbook (.xlsx), or a folder of CSV files")
    command.add_argument("-o", "--output", type=pathlib.Path, help="the plan's file; standard output if none is named")
    command.add_argument("--line", choices=("zero", "infinite"), default="zero",
                         help="what becomes of calls that find all units busy: lost, or waiting (default: zero)")
    command.add_argument("--per", type=period, default="day", metavar="PERIOD",
                         help="the period of the rates of the tables: hour, day, week, year or seconds (default: day)")
    command.add_argument("--turn-out", type=seconds, default=0, metavar="SECONDS",
                         help="seconds that pass before a unit sets out, added to each travel time (default: 0)")
    command.add_argument("--in-order", action="store_true",
                         help="crews of one station go in the order of the table, instead of sharing its calls")
    command.add_argument("--fleet", action="store_true",
                         help="each row of units is a station of a fleet, for the command fleet (version 3 of the text)")
    command.add_argument("--round", action="store_true", help="round rates that no period makes whole")


def period(text: str) -> int:
    value = PERIODS.get(text) or int(text)
    if not 1 <= value <= 100_000_000:
        raise ValueError(text)
    return value


def seconds(text: str) -> int:
    value = int(text)
    if value < 0:
        raise ValueError(text)
    return value


def add_table(commands: "argparse._SubParsersAction[argparse.ArgumentParser]") -> None:
    command = add(commands, "table", "make a tidy table (CSV) of a text of the program", table)
    command.add_argument("text", metavar="TEXT", type=pathlib.Path, help="what a command wrote; - for standard input")
    command.add_argument("-o", "--output", type=pathlib.Path, help="the table's file; standard output if none is named")


def add_picture(commands: "argparse._SubParsersAction[argparse.ArgumentParser]") -> None:
    command = add(commands, "picture", "draw a picture of a text of the program", picture)
    command.add_argument("kind", choices=tuple(PICTURES))
    command.add_argument("text", metavar="TEXT", type=pathlib.Path, help="what a command wrote; - for standard input")
    command.add_argument("-o", "--output", type=pathlib.Path, required=True, help="the picture's file: .svg, .png or .pdf")
    command.add_argument("--plan", type=pathlib.Path, help="the plan, for the points of a map (travel and sweep)")
    command.add_argument("--names", nargs="+", default=[], metavar="NAME", help="names for the plans of a comparison")


def add_many(commands: "argparse._SubParsersAction[argparse.ArgumentParser]") -> None:
    command = add(commands, "many", "run any number of plans by GNU parallel, and make one tidy table of them", many)
    command.add_argument("plans", metavar="PLAN", type=pathlib.Path, nargs="+", help="a plan, or a folder of plans (*.csv)")
    command.add_argument("--study", type=pathlib.Path, required=True, metavar="FOLDER",
                         help="where the texts and the tables go; the same command goes on after an interrupt")
    command.add_argument("--program", default="hypercube", help="the program (default: hypercube)")
    command.add_argument("--full", action="store_true", help="whole reports, and not only the measures of the region")
    command.add_argument("--method", choices=METHODS, help="how the program finds intervals (default: its own)")
    command.add_argument("--jobs", default="100%", help="how many runs at once, as GNU parallel counts them (default: 100%%)")
    command.add_argument("--hosts", metavar="HOSTS", help="hosts that share the runs, as of GNU parallel's --sshlogin; "
                         "the plans are sent there, and the program has to be installed there")


def plan(asked: argparse.Namespace) -> None:
    from .plan import Choices, make_plan
    from .town import read_town
    made = make_plan(read_town(asked.tables, asked.per, asked.fleet),
                     Choices(asked.line, asked.per, asked.turn_out, asked.in_order, asked.round, asked.fleet))
    write(made.text, asked.output)
    for remark in made.remarks:
        say(remark)


def table(asked: argparse.Namespace) -> None:
    from .texts import table_text, values
    write(table_text(values(read(asked.text))), asked.output)


def picture(asked: argparse.Namespace) -> None:
    from . import pictures
    from .maps import map_of
    from .texts import frame
    rows = frame(read(asked.text))
    if asked.output.suffix.lower() not in ENDINGS:
        raise Fault(f"{asked.output}: a picture's name ends in one of {', '.join(ENDINGS)}")
    if PICTURES[asked.kind] and not asked.plan:
        raise Fault(f"the picture {asked.kind} needs the plan, for its map: --plan FILE")
    match asked.kind:
        case "workload":
            drawn = pictures.workloads(rows)
        case "dispatch":
            drawn = pictures.answers(rows)
        case "comparison":
            drawn = pictures.comparison(rows, asked.names)
        case "travel":
            drawn = pictures.travel(rows, map_of(read(asked.plan)))
        case "reach":
            drawn = pictures.reached(rows)
        case _:
            drawn = pictures.sites(rows, map_of(read(asked.plan)))
    pictures.save(drawn, asked.output)


def many(asked: argparse.Namespace) -> None:
    from .many import Study, plans_of, run
    spread = ["--sshlogin", asked.hosts, "--transferfile", "{}", "--cleanup"] if asked.hosts else []
    options = [*([] if asked.full else ["--summary"]), *(["--method", asked.method] if asked.method else [])]
    study = Study(asked.study, plans_of(asked.plans), [asked.program, "solve"], options, ["--jobs", asked.jobs, *spread])
    rows = run(study)
    failed = rows.loc[rows["measure"] == "failed", "plan"]
    say(f"{len(study.plans)} plans, of which {len(failed)} failed; see table.csv and ranks.csv in {study.folder}")


def read(path: pathlib.Path) -> str:
    try:
        return sys.stdin.read() if str(path) == "-" else path.read_text("utf-8")
    except UnicodeDecodeError as error:
        raise Fault(f"{path}: a letter is not UTF-8") from error


def write(text: str, path: pathlib.Path | None) -> None:
    if path:
        path.write_text(text, "utf-8")
    else:
        sys.stdout.write(text)
        sys.stdout.flush()
