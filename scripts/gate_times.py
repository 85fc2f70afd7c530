#!/usr/bin/env python3
"""Runs a command, as `rt ci`, and then prints where its processor time went: for each crate the minutes of its proofs,
of its tests' proofs and of its edits. It looks at the prover's processes once a second, so each may miss a second.

  gate_times.py rt ci --anew
"""
import collections
import os
import pathlib
import subprocess
import sys
import time

TICKS = os.sysconf("SC_CLK_TCK")


def provers():
    """Each process of the prover: what marks it, the crate, the kind of its work, and its processor time so far."""
    for folder in pathlib.Path("/proc").glob("[0-9]*"):
        try:
            words = (folder / "cmdline").read_bytes().decode(errors="replace").split("\0")
            if not words[0].endswith("/rattle") or "--crate-name" not in words:
                continue
            fields = (folder / "stat").read_text().rsplit(")", 1)[1].split()
            at = os.readlink(folder / "cwd")
        except (OSError, IndexError):
            continue
        crate = words[words.index("--crate-name") + 1]
        kind = "edits" if "/rt-edit-" in at else "tests" if "--test" in words or crate.endswith("_tests") else "proofs"
        yield (folder.name, fields[19]), crate.removesuffix("_tests"), kind, (int(fields[11]) + int(fields[12])) / TICKS


def watched(command):
    """How the command ended, in how many seconds, and what was seen of the prover meanwhile."""
    seen, began = {}, time.monotonic()
    running = subprocess.Popen(command)
    while running.poll() is None:
        for mark, crate, kind, seconds in provers():
            seen[mark] = (crate, kind, seconds)
        time.sleep(1)
    return running.returncode, time.monotonic() - began, seen.values()


def print_table(seconds, seen):
    times = collections.defaultdict(collections.Counter)
    for crate, kind, used in seen:
        times[crate][kind] += used / 60
    kinds = ("proofs", "tests", "edits")
    print("| Crate | " + " | ".join(kinds) + " |")
    print("|---|---|---|---|")
    for crate in sorted(times, key=lambda name: -sum(times[name].values())):
        print(f"| `{crate}` | " + " | ".join(f"{times[crate][kind]:.1f}" for kind in kinds) + " |")
    print("| all | " + " | ".join(f"{sum(row[kind] for row in times.values()):.1f}" for kind in kinds) + " |")
    print(f"{seconds / 60:.1f} minutes in all", file=sys.stderr)


if __name__ == "__main__":
    if len(sys.argv) < 2:
        sys.exit(__doc__)
    status, seconds, seen = watched(sys.argv[1:])
    print_table(seconds, seen)
    sys.exit(status)
