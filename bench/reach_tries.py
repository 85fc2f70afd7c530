#!/usr/bin/env python3
"""Tries `reach` of a built program on plans that are drawn by chance: reach_tries.py PROGRAM [COUNT [NUMBER]]

What it writes has to be what reach_rows.py finds, byte for byte, and each of its intervals has to hold the share itself. No
share falls as the seconds grow, that of the region is 1 at 100,000 seconds, and all are 0 below the shortest trip. NUMBER
begins the draws. The plans are those of sweep_tries.py: both lines, all three rules, groups, units that share a station or
divide their time, atoms and districts without calls, calls far above service. A plan is asked for 1 to 16 numbers, many of
them times of trips or a second less. In between stand words that are no command.
"""
import collections
import pathlib
import random
import subprocess
import sys
import tempfile

from reach_rows import MILLION, MOST_LIMIT, MOST_LIMITS, faults, limits_of, rows_of, wanted
from sweep_tries import Draw

# Words that are no limits: too many digits, too large, no digits, not each more than the one before, empty parts, too many.
NO_LIMITS = ("0000480", "1000000", "100001", "", "480s", "-1", "+480", "4.5", "480,480", "480,240", "240,,480", ",480", "480,",
             "240 480", " 480", "4８0", ",".join(map(str, range(1, 18))))


def draw_limits(chance, trips):
    """Some numbers of seconds: about those of trips, and whatever else is allowed."""
    near = {seconds + chance.choice((-1, 0, 0, 0, 1)) for seconds in chance.sample(trips, min(len(trips), 12))}
    far = {chance.randint(0, 2 * max(trips) + 1) for _ in range(12)} | {0, MOST_LIMIT}
    pool = sorted(limit for limit in near | far if 0 <= limit <= MOST_LIMIT)
    count = chance.choice((1, 1, 2, 3, MOST_LIMITS))
    return sorted(chance.sample(pool, min(count, len(pool))))


def trips_of(text):
    return [int(row.split(",")[3]) for row in text.splitlines() if row.startswith("travel,")]


def bounds(written, limits, trips):
    """What of a written text is wrong at the ends: the region has all calls at 100,000 seconds, and nobody below all trips."""
    for label, ends in rows_of(written):
        for place, limit in enumerate(limits):
            pair = ends[2 * place:2 * place + 2] if ends is not None else []
            if pair and label == ("region",) and limit >= max(trips) and pair[1] != MILLION:
                yield f"{','.join(label)} is below 1 at {limit}"
            if pair and limit < min(trips) and pair != [0, 0]:
                yield f"{','.join(label)} is above 0 at {limit}"


def run(program, folder, word):
    done = subprocess.run([program, "reach", "--", "plan.csv", word], cwd=folder, capture_output=True, check=False)
    return done.returncode, done.stdout.decode()


def attempt(program, folder, number, chance):
    """One plan: what kinds of it there were, and what is wrong with what the program writes of it."""
    draw = Draw(chance, bool(number % 2))
    (folder / "plan.csv").write_text(draw.text, encoding="utf-8")
    trips = trips_of(draw.text)
    limits = draw_limits(chance, trips)
    word = ",".join(map(str, limits))
    status, written = run(program, folder, word)
    right, shares = wanted(draw.text, limits)
    if status or written != right:
        wrong = [f"status {status}, {written!r} is not {right!r}"]
    else:
        wrong = [*faults(written, shares), *bounds(written, limits, trips)]
    return list(kinds_of(draw, number, limits, shares)), wrong, f"reach plan.csv {word}\n{draw.text}"


def kinds_of(draw, number, limits, shares):
    """What a try was one of."""
    yield from ("infinite" if number % 2 else "zero", draw.rule)
    if draw.grouped:
        yield "grouped"
    if None in shares.values():
        yield "a silent district"
    if len(limits) == MOST_LIMITS:
        yield "16 numbers"
    if MOST_LIMIT in limits:
        yield "100,000 seconds"


def not_limits(program, folder):
    """The words that should be no command, and are one, or have another usage line than no words at all."""
    usage = subprocess.run([program], capture_output=True, check=False).stdout.decode()
    for word in NO_LIMITS:
        if limits_of(word) is not None or run(program, folder, word) != (1, usage):
            yield word


def main(program, count=100, number=1):
    program = str(pathlib.Path(program).resolve())
    chance, tally, failed = random.Random(int(number)), collections.Counter(), 0
    with tempfile.TemporaryDirectory() as folder:
        for place in range(int(count)):
            kinds, wrong, text = attempt(program, pathlib.Path(folder), place, chance)
            tally.update(kinds)
            if wrong:
                failed += 1
                print(f"WRONG {place}: {'; '.join(wrong)}\n{text}")
        taken = list(not_limits(program, folder))
    if taken:
        print(f"WRONG: taken for numbers of seconds, or another usage line: {taken}")
    kinds = ", ".join(f"{kind} {times}" for kind, times in sorted(tally.items()))
    print(f"reach_tries: {count} plans, {failed} wrong; {kinds}")
    return int(failed > 0 or bool(taken))


if __name__ == "__main__":
    if not 2 <= len(sys.argv) <= 4:
        sys.exit(__doc__)
    sys.exit(main(*sys.argv[1:]))
