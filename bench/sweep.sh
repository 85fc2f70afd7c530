#!/bin/sh
# Seconds of `sweep` for a unit of nine over 36 atoms, on one processor and on four, beside those of solving each of the 36
# plans with the unit at one atom, on one; and its memory, beside that of a study of sixteen of these plans:
# bench/sweep.sh [RUNS]. Each time is the least of so many runs, 3 where no number is given.
#
# The command takes as many workers as there are processors, and taskset says how many it sees.
. "$(dirname -- "$0")/common.sh"
program=$(built hypercube)
[ "$(nproc)" -ge 4 ] || { echo "sweep.sh: there are fewer than four processors" >&2; exit 1; }

cd "$work"
"$program" make 9 1 >plan.csv
names=
for atom in $(seq 36); do
    { grep -v '^at,U1,' plan.csv; echo "at,U1,A$atom,1000"; } >"$atom.csv"
    [ "$atom" -gt 16 ] || names="$names${names:+, }\"$atom.csv\""
done
echo "plans = [$names]" >study.toml
echo 'measures = ["travel"]' >>study.toml

whole_on() {
    processors=$1
    shift
    python3 "$bench/whole.py" taskset -c "$processors" "$@"
}

sweep_on() { whole_on "$1" "$program" sweep plan.csv U1 travel; }

solve_each() {
    whole_on 0 sh -c 'for atom in $(seq 36); do "$0" solve "$atom.csv" --summary || exit; done' "$program"
}

study() { whole_on 0-3 "$program" compare study.toml --workers 4; }

uptime
taskset -c 0 "$program" sweep plan.csv U1 travel >one.report
taskset -c 0-3 "$program" sweep plan.csv U1 travel >four.report
cmp one.report four.report
one=$(least 2 "$runs" sweep_on 0)
four=$(least 2 "$runs" sweep_on 0-3)
solved=$(least 2 "$runs" solve_each)
compared=$(least 2 "$runs" study)
printf '%s %s\n' "36-solves,1" "$solved" "sweep,1" "$one" "sweep,4" "$four" "study-of-16,4" "$compared" | awk '
    $2 != 0 { print $1 " ended with status " $2; exit 1 }
    { name[NR] = $1; seconds[NR] = $3; memory[NR] = $4 }
    END {
        if (NR != 4) exit 1
        print "run            seconds     MB"
        for (k = 1; k <= 4; k++) printf "%-14s %7.3f %6.1f\n", name[k], seconds[k], memory[k]
        printf "one processor for 36 solves: %.2f; four for one: %.2f\n", seconds[2] / seconds[1], seconds[3] / seconds[2]
    }'
uptime
