#!/usr/bin/env python3
"""Builds the program `hypercube`, or runs it before any proof.

  program.py build          proves and builds it, unless what is built is of these very sources
  program.py try WORDS..    runs it on these words with no proof, in about a minute and a half

The crates that the program stands on are proved side by side, each as soon as those below it are done, in copies of
the sources.
"""
import concurrent.futures
import hashlib
import os
import pathlib
import queue
import re
import shutil
import subprocess
import sys
import tempfile
import time
import tomllib

TOP = pathlib.Path(__file__).resolve().parent.parent
CRATES = TOP / "crates"
PROGRAM = "hypercube"
BUILT = CRATES / PROGRAM / "out" / PROGRAM
STAMP = CRATES / PROGRAM / "out" / "sources.sha256"
FAILED = 125
FUNCTION = re.compile(rb"^ *(?:pub(?:\(crate\))? )?(?:const )?fn ", re.MULTILINE)


def say(text):
    print(f"{PROGRAM}: {text}", file=sys.stderr, flush=True)


def graph_below(top):
    """For each crate of the repository that `top` stands on, and for itself, the crates that it stands on."""
    graph = {}
    for row in (TOP / "crates.txt").read_text().splitlines():
        name, colon, below = row.partition(":")
        if colon and not row.startswith("#"):
            graph[name.split()[0]] = below.split()
    found, left = {}, [top]
    while left:
        name = left.pop()
        if name not in found:
            found[name] = [low for low in graph[name] if low in graph]
            left += found[name]
    return found


def sources_of(name):
    """The files of a crate that a build reads."""
    for folder in ("src", "specs", "proofs"):
        yield from (path for path in sorted((CRATES / name / folder).rglob("*")) if path.suffix in (".rt", ".antt"))


def work_in(name):
    """About how long the proofs of a crate take, by its sources: a function as long as forty lines of proofs."""
    work = 0
    for path in sources_of(name):
        text = path.read_bytes()
        work += len(FUNCTION.findall(text)) if path.suffix == ".rt" else text.count(b"\n") / 40
    return work


class Chains:
    """How long the proofs of the chains of crates take."""

    def __init__(self, graph):
        self.work = {name: work_in(name) for name in graph}
        self.below = graph
        self.above = {name: [high for high in graph if name in graph[high]] for name in graph}
        self.longest = max(self.up_from(name) for name in graph)

    def up_from(self, name):
        """Of the longest chain from this crate upward."""
        return self.work[name] + max(map(self.up_from, self.above[name]), default=0)

    def down_from(self, name):
        return self.work[name] + max(map(self.down_from, self.below[name]), default=0)

    def is_awaited(self, name):
        """Whether one of the longest chains goes through this crate, so that the whole waits for it."""
        return self.up_from(name) + self.down_from(name) - self.work[name] > 0.6 * self.longest


def sum_of_sources(names):
    """A checksum of all that a build reads."""
    total = hashlib.sha256((TOP / "crates.txt").read_bytes())
    for name in sorted(names):
        for path in sources_of(name):
            total.update(str(path.relative_to(TOP)).encode() + b"\0" + path.read_bytes() + b"\0")
    return total.hexdigest()


def copied(folder):
    """The crates of a copy of the sources, in this new folder. The toolchain lets only one command at a time into a
    checkout's crates and those below them, and gives each checkout what another on the machine has proved."""
    shutil.copytree(CRATES, folder / "crates", ignore=shutil.ignore_patterns("out", "must-fail"))
    for name in ("crates.txt", "HANDLES"):
        shutil.copy(TOP / name, folder)
    return folder / "crates"


def run_in(folder, words):
    return subprocess.run(words, cwd=folder, text=True, stdin=subprocess.DEVNULL,
                          stdout=subprocess.PIPE, stderr=subprocess.STDOUT)


def prove(name, is_awaited, copies):
    """Proves a crate in one of the copies. One that the whole waits for goes before others, on all processors."""
    began = time.monotonic()
    command = ["rt", "lib", "--jobs", str(os.cpu_count() or 1)] if is_awaited else ["nice", "rt", "lib", "--jobs", "1"]
    copy = copies.get()
    try:
        done = run_in(copy / name, command)
    finally:
        copies.put(copy)
    return name, done, time.monotonic() - began


def failed(name, done):
    sys.stderr.write(done.stdout)
    say(f"{name} was not built")
    return FAILED


def prove_side_by_side(graph, copies, processors):
    """Proves each crate once those below it are proved, those with the longest chain above them first."""
    chains = Chains(graph)
    waiting = sorted(graph, key=lambda name: -chains.up_from(name))
    proved, running = set(), set()
    with concurrent.futures.ThreadPoolExecutor(processors) as pool:
        while waiting or running:
            ready = [name for name in waiting if proved.issuperset(graph[name])][:processors - len(running)]
            for name in ready:
                waiting.remove(name)
                running.add(pool.submit(prove, name, chains.is_awaited(name), copies))
            ended, running = concurrent.futures.wait(running, return_when=concurrent.futures.FIRST_COMPLETED)
            for name, done, seconds in (one.result() for one in ended):
                if done.returncode:
                    pool.shutdown(cancel_futures=True)
                    return failed(name, done)
                proved.add(name)
                say(f"{len(proved)} of {len(graph)}: {name}, {seconds:.0f} s")
    return 0


def build():
    graph = graph_below(PROGRAM)
    wanted = sum_of_sources(graph)
    if BUILT.exists() and STAMP.exists() and STAMP.read_text() == wanted:
        return 0
    say("proving and building the program, which takes some minutes the first time")
    processors = os.cpu_count() or 1
    libraries = {name: below for name, below in graph.items() if name != PROGRAM}
    with tempfile.TemporaryDirectory(prefix=f"{PROGRAM}-") as room:
        copies = queue.Queue()
        for number in range(processors):
            copies.put(copied(pathlib.Path(room) / str(number)))
        if prove_side_by_side(libraries, copies, processors):
            return FAILED
        # The program takes what was proved, and is proved and linked by a run of its own example.
        done = run_in(CRATES / PROGRAM, ["rt", "run", "--", "solve", "data/a.csv"])
    if done.returncode:
        return failed(PROGRAM, done)
    STAMP.write_text(wanted)
    return 0


def files_named(words):
    """The files that a run may ask for: those that a word names, and of a study the plans that it names."""
    names = [word for word in words if pathlib.Path(word).is_file()]
    for study in [name for name in names if name.endswith(".toml")]:
        try:
            plans = tomllib.loads(pathlib.Path(study).read_text()).get("plans", [])
        except (OSError, ValueError):
            continue
        names += [plan for plan in plans if isinstance(plan, str) and pathlib.Path(plan).is_file()]
    return dict.fromkeys(names)


def try_out(words):
    say("this run is not proved")
    data = [flag for name in files_named(words) for flag in ("--data", f"{name}={pathlib.Path(name).resolve()}")]
    done = subprocess.run(["rt", "try", "--steps", "1", *data, "--", *words], cwd=CRATES / PROGRAM,
                          stdin=subprocess.DEVNULL, stderr=subprocess.PIPE)
    told = done.stderr.decode(errors="replace")
    ended = re.findall(r"^run=\S+ status=(\d+)", told, re.MULTILINE)
    if ended:
        # What the program says stands in front of the lines of rt.
        sys.stderr.write(re.split(r"^interpreter: ", told, maxsplit=1, flags=re.MULTILINE)[0])
        return int(ended[-1])
    sys.stderr.write(told)
    return FAILED


if __name__ == "__main__":
    match sys.argv[1:]:
        case ["build"]:
            sys.exit(build())
        case ["try", *words]:
            sys.exit(try_out(words))
        case _:
            sys.exit(__doc__)
