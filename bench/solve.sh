#!/bin/sh
# Times of solving made plans of 8, 10 and 12 units by 1, 2 and 4 workers, in one run: bench/solve.sh [RUNS]. Each time is
# the least of so many runs, 3 where no number is given, and of one run at twelve units.
#
# The first table has the milliseconds of each part: reading the plan, the weights of its states, all measures from the
# weights, and writing the report. The second has the seconds of the whole program and the most memory that it had, beside
# a plain dense elimination of the same chain in double precision in C.
. "$(dirname -- "$0")/common.sh"
"${CC:-gcc}" -O2 -o "$work/dense" "$bench/dense.c"
program=$(built hypercube)
times=$(built solve_times)

prepare() {
    python3 "$bench/made_plan.py" "$1" 1 >"$work/$1.csv"
    "$times" rates "$work/$1.csv" >"$work/$1.rates"
}

runs_of() { [ "$1" -lt 12 ] && echo "$runs" || echo 1; }

in_c() { "$work/dense" <"$work/$1.rates"; }

whole() { python3 "$bench/whole.py" "$program" solve "$work/$1.csv" --workers "$2"; }

parts_rows() {
    for workers in 1 2 4; do
        ours=$(least 2 "$(runs_of "$1")" "$times" parts "$work/$1.csv" "$workers")
        echo "$1 $workers $ours" | awk '
            { printf "%5d %7d %8.3f %8.3f %8.3f %8.3f\n", $1, $2, $3 / 1e6, $4 / 1e6, $5 / 1e6, $6 / 1e6 }'
    done
}

whole_rows() {
    c=$(least 2 "$(runs_of "$1")" in_c "$1")
    for workers in 1 2 4; do
        ours=$(least 2 "$(runs_of "$1")" whole "$1" "$workers")
        echo "$1 $workers $ours $c" | awk '
            $3 != 0 { print "the program ended with status " $3; exit 1 }
            { printf "%5d %7d %8.3f %6.1f %10.3f %6.2f\n", $1, $2, $4, $5, $7 / 1e9, $4 / ($7 / 1e9) }'
    done
}

uptime
for units in 8 10 12; do
    prepare "$units"
done
echo "units workers  reading  weights measures  writing"
for units in 8 10 12; do
    parts_rows "$units"
done
echo
echo "units workers  seconds     MB  C seconds  ratio"
for units in 8 10 12; do
    whole_rows "$units"
done
uptime
