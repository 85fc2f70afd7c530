#!/bin/sh
# Seconds of `pairs` on the made plan of ten units, half of whose calls need two, beside those of `solve` on the same plan, by
# one worker: bench/pairs.sh [RUNS]. Each time is the least of so many runs, 3 where no number is given.
. "$(dirname -- "$0")/common.sh"
program=$(built hypercube)
"$program" make 10 7 >"$work/plan.csv"

whole() { python3 "$bench/whole.py" "$program" "$@"; }

uptime
solved=$(least 2 "$runs" whole solve "$work/plan.csv")
paired=$(least 2 "$runs" whole pairs "$work/plan.csv" 50)
echo "  solve   pairs  ratio     MB"
echo "$solved $paired" | awk '
    $1 != 0 || $4 != 0 { print "the program ended with status " $1 " and " $4; exit 1 }
    { printf "%7.3f %7.3f %6.2f %6.1f\n", $2, $5, $5 / $2, $6 }'
uptime
