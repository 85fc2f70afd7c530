#!/bin/sh
# Times of the chain crates beside plain C, in one run: bench/chain.sh [RUNS]. Each time is the least of so many runs,
# 3 where no number is given, and of one run at twelve units.
#
# The first table has the nanoseconds of the rows' change per changed entry, and those of the same loop in C. The second
# has the seconds of a whole elimination and back substitution, and those of a plain dense one in double precision.
. "$(dirname -- "$0")/common.sh"
for name in rows dense; do
    "${CC:-gcc}" -O2 -o "$work/$name" "$bench/$name.c"
done
times=$(built solve_times)

prepare() {
    python3 "$bench/made_plan.py" "$1" 1 >"$work/$1.csv"
    "$times" rates "$work/$1.csv" >"$work/$1.rates"
}

in_c() { "$work/$1" <"$work/$2.rates"; }

# Seconds of `solve`, behind a sum that `least` can sort by.
solve() { "$times" solve "$work/$1.csv" "$2" 2>&1 | awk '{ print $3 "-" $4, $1 + $2 }'; }

rows_table() {
    c=$(least 2 "$runs" in_c rows "$1")
    echo "units workers   entries     ns    C ns  ratio"
    for workers in 1 2 4; do
        ours=$(least 2 "$runs" "$times" rows "$work/$1.csv" "$workers")
        echo "$1 $workers $ours $c" | awk '
            $3 != $7 || $5 != $9 || $6 != $10 { print "the two leave other entries"; exit 1 }
            { printf "%5d %7d %9d %6.2f  %6.2f %6.2f\n", $1, $2, $3, $4 / $3, $8 / $7, $4 / $8 }'
    done
}

solve_rows() {
    c=$(least 2 "$2" in_c dense "$1")
    for workers in 1 2 4; do
        ours=$(least 2 "$2" solve "$1" "$workers")
        echo "$1 $workers $ours $c" |
            awk '{ printf "%5d %7d %10.4f  %10.4f %6.2f\n", $1, $2, $4 / 1e9, $6 / 1e9, $4 / $6 }'
    done
}

uptime
for units in 8 10 12; do
    prepare "$units"
done
rows_table 10
echo
echo "units workers    seconds  C seconds  ratio"
solve_rows 8 "$runs"
solve_rows 10 "$runs"
solve_rows 12 1
uptime
