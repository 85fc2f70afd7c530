#!/bin/sh
# Seconds of `reach` for sixteen numbers of seconds beside those of `solve` on the same plan: made plans of 2, 6 and 10 units, and
# two units on a street of 200 atoms: bench/reach.sh [RUNS]. Each time is the least of so many runs, 20 where no number is given.
# Ends with 1 if `reach` takes more than 1.5 times the seconds of `solve` on one of them.
. "$(dirname -- "$0")/common.sh"
runs=${1:-20}
program=$(built hypercube)
limits=$(seq -s , 60 60 960)

# Two units at the beginning of a street of 200 atoms, each with a call in a period.
street() {
    awk 'BEGIN {
        print "rule,modified"
        for (n = 1; n <= 2; n++) print "unit,U" n ",150\nat,U" n ",A" n ",1000"
        for (i = 0; i < 200; i++) {
            print "atom,A" i + 1 ",1," i * 100 ",0,U1"
            for (j = 0; j < 200; j++) print "travel,A" i + 1 ",A" j + 1 "," 30 + 7 * (i < j ? j - i : i - j)
        }
    }'
}

whole() { python3 "$bench/whole.py" "$program" "$@"; }

row() {
    solved=$(least 2 "$runs" whole solve "$work/$1.csv")
    reached=$(least 2 "$runs" whole reach "$work/$1.csv" "$limits")
    echo "$1 $solved $reached" | awk '
        $2 != 0 || $5 != 0 { print "the program ended with status " $2 " and " $5; exit 1 }
        { printf "%-8s %8.4f %8.4f %6.2f\n", $1, $3, $6, $6 / $3; exit $6 / $3 > 1.5 }' || over=1
}

for units in 2 6 10; do
    "$program" make "$units" 1 >"$work/$units.csv"
done
street >"$work/street.csv"
over=0
uptime
echo "plan        solve    reach  ratio"
for plan in 2 6 10 street; do
    row "$plan"
done
uptime
exit "$over"
