#!/usr/bin/env python3
"""Says all faults of a plan or a fleet that can be told at once: python3 scripts/faults.py PROGRAM PLAN

A text with a record version,3 is a fleet. The program says the first fault of a text. This script makes a note of the record in which it stands, so that no other record
gets another number or line, and runs the program again. So every record with a wrong form is found. Which names are unknown and
what stands twice is judged after that, unless a record of a unit or an atom had to be taken out, since others would then name
what is not there; and what the whole plan lacks only if nothing was taken out.

It ends with 0 if there is no fault, with 2 if there are some, and with the program's status if the plan was not read.
"""
import pathlib
import re
import subprocess
import sys
import tempfile

MOST_FAULTS = 50
REFUSED = 2
# The refusals of one record by its form, which say nothing of any other record.
FORM_REFUSALS = range(1, 7)
# The refusals that say in which record the fault stands, whose record may then be taken out.
RECORD_REFUSALS = {*FORM_REFUSALS, 10, 11, 12, 13, 14, 20, 30, 42, 43, 50, 51, 100} - {2}
NAMING_KINDS = (b"unit", b"atom")
FLEET_VERSION = re.compile(rb'^[\xef\xbb\xbf \t"]*version[ \t"]*,[ \t"]*0*3[ \t"]*[,\r\n]', re.MULTILINE)


def command_for(text):
    """The command that reads such a text."""
    return "fleet" if FLEET_VERSION.search(text + b"\n") else "solve"


def first_fault(program, command, text):
    """The status of a run on this text, the number of its refusal, and what it says in which line."""
    with tempfile.TemporaryDirectory() as folder:
        (pathlib.Path(folder) / "plan").write_bytes(text)
        end = subprocess.run([program, command, "plan", "--summary"], cwd=folder, capture_output=True, stdin=subprocess.DEVNULL)
    refused = re.match(rb"refused,1,(\d+)", end.stdout)
    said = end.stderr.decode(errors="replace").removeprefix("hypercube: plan")
    line = re.match(r", record \d+ \(line (\d+)\)", said)
    return end.returncode, int(refused[1]) if refused else 0, said, int(line[1]) if line else 0


def without_line(text, line):
    """The text with a note in place of a line, and the line; nothing if a quote goes on after it."""
    lines = re.split(rb"(\r\n|\n|\r)", text)
    place = 2 * (line - 1)
    taken = lines[place]
    if taken.count(b'"') % 2:
        return None, taken
    lines[place] = b"note"
    return b"".join(lines), taken


def is_naming(line, said):
    """Whether a record is of a unit or an atom, or was meant to be."""
    return line.lstrip(b" \t\xef\xbb\xbf").lower().startswith(NAMING_KINDS) or "Write unit," in said or "Write atom," in said


def faults(program, text):
    """What is said of each fault, and the status."""
    command, taken_out, names_taken = command_for(text), False, False
    for _ in range(MOST_FAULTS):
        ended, number, said, line = first_fault(program, command, text)
        if ended != REFUSED:
            return REFUSED if taken_out else ended
        if names_taken and number not in FORM_REFUSALS or taken_out and number not in RECORD_REFUSALS:
            yield ": more may be said once these are mended.\n"
            return REFUSED
        yield said
        if number not in RECORD_REFUSALS or not line:
            return REFUSED
        text, taken = without_line(text, line)
        if text is None:
            return REFUSED
        taken_out = True
        names_taken |= number in FORM_REFUSALS and is_naming(taken, said)
    return REFUSED


def main(program, name):
    try:
        text = pathlib.Path(name).read_bytes()
    except OSError:
        return subprocess.run([program, "solve", "--", name], stdout=subprocess.DEVNULL, stdin=subprocess.DEVNULL).returncode
    found = faults(str(pathlib.Path(program).resolve()), text)
    while True:
        try:
            print(f"hypercube: {name}{next(found)}", end="", file=sys.stderr)
        except StopIteration as end:
            return end.value


if __name__ == "__main__":
    if len(sys.argv) != 3:
        sys.exit(__doc__)
    sys.exit(main(*sys.argv[1:]))
