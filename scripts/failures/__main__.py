"""Tries the built program at every place at which the world can fail: python3 scripts/failures PROGRAM [PART..]

Each try is one run of the program and one judgement of its status and of the bytes that it wrote. Calls are refused by their
numbers, by failing.c, which gcc builds into a temporary folder. The parts are

  texts     long texts that are refused, with the most memory that each may cost
  places    folders, missing files, a full disk, a closed standard output, long names, words that are not UTF-8
  reading   opens and reads that fail, and reads of one byte at a time
  writing   writes that fail, and writes of one byte at a time
  threads   threads that cannot be started
  memory    allocations that are refused, each on its own and together with all later ones

With no PART it tries all. It prints how many tries each part had, and ends with 1 if any of them went wrong.
"""
import concurrent.futures
import dataclasses
import errno
import os
import pathlib
import sys
import tempfile
import threading
from typing import Callable

from tables import FILES, FRONTS, MEMORY_RUNS, PLACES, READING_RUNS, TEXTS, THREAD_RUNS, WRITING_RUNS
from world import End, World

# How many runs of a part have to have had a call that failed.
FEWEST = {"memory": 2000, "threads": 100}
# The last number that fails, if it is above the first, and how the name of the try goes on.
ONE_OR_ALL_LATER = ((0, ""), (2**63, " and none later"))
MOST_SHOWN = 20
STATUS = {"usage": 1, "refused": 2, "absent": 4, "unread": 5, "unwritten": 6, "no memory": 7}


@dataclasses.dataclass(frozen=True)
class Try:
    """A run of the program, and whether an end of it is right."""
    name: str
    words: list[str | bytes]
    is_right: Callable[[End], bool]
    failing: str = ""
    output: str = "pipe"
    # Whether a call has to be marked, as one that failed or was cut short.
    marks: bool = False


def whole(good):
    return lambda end: (end.status, end.text) == (good.status, good.text)


def exactly(status, text=b""):
    return lambda end: (end.status, end.text) == (STATUS[status], text)


def whole_or_nothing(good):
    """The run's own end, or lack of memory with nothing written."""
    return lambda end: whole(good)(end) or exactly("no memory")(end)


def refused_within(text):
    return lambda end: exactly("refused", text.row)(end) and end.megabytes <= text.megabytes


def evenly(count, most):
    """At most so many of the numbers from 1 to COUNT, the first and the last among them."""
    if count <= most:
        return range(1, count + 1)
    return sorted({1 + k * (count - 1) // (most - 1) for k in range(most)})


def good_run(world, line):
    """A run in which nothing fails: it writes a text of its own."""
    good = world.run(line.split())
    if good.status not in (0, 1, 2, 3) or not good.text:
        sys.exit(f"failures: {line}: status {good.status} and {len(good.text)} bytes though nothing failed")
    return good


def is_shared(line):
    """Whether workers share a run, so that the numbers of its allocations may change from run to run."""
    return "--workers" in line or line.startswith("sweep")


def hostile_texts(world):
    """Long texts that are refused, each within its memory and 1 MB of stack."""
    for text in TEXTS:
        world.write(text)
        front = FRONTS[pathlib.Path(text.name).suffix]
        yield Try(f"{text.name}, within {text.megabytes} MB", [*front, text.name], refused_within(text),
                  output="pipe, with a stack of 1 MB")


def odd_places(world):
    """Files that are none, a standard output that takes nothing, words that are not UTF-8."""
    for words, status, text in PLACES:
        yield Try(" ".join(map(ascii, words)), words, exactly(status, text))
    if os.geteuid() != 0:
        (world.files / "secret.csv").touch(0o000)
        yield Try("an unreadable file", ["solve", "secret.csv"], exactly("unread"))
    for line in WRITING_RUNS:
        for output in ("/dev/full", "closed", "pipe without a reader"):
            yield Try(f"{line}: {output}", line.split(), exactly("unwritten"), output=output)
    yield Try("make 10 7: a pipe closed early", ["make", "10", "7"], exactly("unwritten"), output="pipe closed early")


def failed_reads(world):
    """Opens and reads that fail. The later of two opens may find nothing. What fails of the system's own files changes nothing."""
    for line in READING_RUNS:
        good, words = good_run(world, line), line.split()
        yield Try(f"{line}: a byte at a time", words, whole(good), "read 0 0 0 1", marks=True)
        for number in evenly(world.calls(line, "open"), 20):
            for error, status in ((errno.ENOENT, "absent"), (errno.EACCES, "unread"), (errno.EMFILE, "unread"),
                                  (errno.ENOMEM, "no memory")):
                yield Try(f"{line}: open {number} fails by {errno.errorcode[error]}", words, exactly(status),
                          f"open {number} {number} {error} 0", marks=True)
        for number in evenly(world.calls(line, "system"), 20):
            for error in (errno.ENOENT, errno.EACCES, errno.ENOMEM):
                yield Try(f"{line}: open {number} of the system's files fails by {errno.errorcode[error]}", words, whole(good),
                          f"system {number} {number} {error} 0", marks=True)
        for most in (0, 10):
            for number in evenly(world.calls(line, "read", most), 100):
                yield Try(f"{line}: read {number} fails, of {most or 'all'} bytes", words, exactly("unread"),
                          f"read {number} {number} {errno.EIO} {most}", marks=True)


def failed_writes(world):
    """Writes that fail, by an error or by taking nothing: what the earlier ones took is all that is written."""
    for line in WRITING_RUNS:
        good, words = good_run(world, line), line.split()
        yield Try(f"{line}: a byte at a time", words, whole(good), "write 0 0 0 1", marks=True)
        for most in (1, 7):
            for number in evenly(world.calls(line, "write", most), 60):
                for error in (errno.EIO, errno.ENOSPC, 0):
                    yield Try(f"{line}: write {number} fails, of {most} bytes", words,
                              exactly("unwritten", good.text[:most * (number - 1)]),
                              f"write {number} {number} {error} {most}", marks=True)


def refused_threads(world):
    """Threads that cannot be started, each on its own and together with all later ones: the bytes are the same."""
    for line, asked in THREAD_RUNS:
        good = good_run(world, line)
        for number in evenly(world.calls(asked, "thread"), 24):
            for last, more in ONE_OR_ALL_LATER:
                yield Try(f"{asked}: no thread {number}{more}", asked.split(), whole(good),
                          f"thread {number} {max(number, last)} {errno.EAGAIN} 0")


def refused_memory(world):
    """Allocations that are refused, each on its own and together with all later ones."""
    for line, most in MEMORY_RUNS:
        good, count = good_run(world, line), world.calls(line, "memory")
        numbers = evenly(count, most)
        print(f"  {line or 'no words'}: {len(numbers)} of {count} allocations")
        for number in numbers:
            for last, more in ONE_OR_ALL_LATER:
                yield Try(f"{line}: no allocation {number}{more}", line.split(), whole_or_nothing(good),
                          f"memory {number} {max(number, last)} {errno.ENOMEM} 0", marks=not is_shared(line))


PARTS = {"texts": hostile_texts, "places": odd_places, "reading": failed_reads, "writing": failed_writes,
         "threads": refused_threads, "memory": refused_memory}


@dataclasses.dataclass
class Tally:
    """What became of the tries of a part."""
    tries: int = 0
    marked: int = 0
    wrong: int = 0
    seconds: float = 0
    megabytes: float = 0

    def add(self, one, end):
        self.tries += 1
        self.marked += end.marked > 0
        self.seconds = max(self.seconds, end.seconds)
        self.megabytes = max(self.megabytes, end.megabytes)
        if not one.is_right(end) or (one.marks and not end.marked):
            self.wrong += 1
            if self.wrong > MOST_SHOWN:
                return
            print(f"  WRONG {one.name}: status {end.status}, {len(end.text)} bytes {end.text[:60]!r}, {end.marked} calls marked, "
                  f"{end.seconds:.2f} s, {end.megabytes:.0f} MB")


def tally_of(world, pool, part):
    """Tries a part, several runs at once. An end is judged at once and not kept, since the memory of this script counts for the
    runs that it begins."""
    print(f"{part}: {PARTS[part].__doc__}")
    tally, lock = Tally(), threading.Lock()

    def attempt(one):
        end = world.run(one.words, one.failing, one.output)
        with lock:
            tally.add(one, end)

    list(pool.map(attempt, PARTS[part](world)))
    print(f"  {tally.tries} tries, in {tally.marked} of which a call failed or was cut short; {tally.wrong} wrong; "
          f"at most {tally.seconds:.2f} s and {tally.megabytes:.0f} MB", flush=True)
    return tally


def main(program, parts):
    with tempfile.TemporaryDirectory() as folder, concurrent.futures.ThreadPoolExecutor(os.cpu_count()) as pool:
        world = World(program, pathlib.Path(folder), FILES)
        tallies = {part: tally_of(world, pool, part) for part in parts}
    wrong = sum(tally.wrong for tally in tallies.values())
    print(f"failures: {sum(tally.tries for tally in tallies.values())} tries, {wrong} wrong")
    few = [part for part, tally in tallies.items() if tally.marked < FEWEST.get(part, 0)]
    for part in few:
        print(f"failures: {part}: a call failed in fewer than {FEWEST[part]} runs")
    return int(wrong > 0 or bool(few))


if __name__ == "__main__":
    if len(sys.argv) < 2 or not set(sys.argv[2:]) <= PARTS.keys():
        sys.exit(__doc__)
    sys.exit(main(sys.argv[1], sys.argv[2:] or list(PARTS)))
