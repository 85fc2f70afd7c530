#!/bin/sh
# Times the reading and playing of a day of 50,000 records, thousands of whose calls wait at once, beside a bare pass of the CSV
# reader over the same bytes: bench/replay.sh. The plan is the made one of twelve units, if its calls wait.
. "$(dirname -- "$0")/common.sh"
program=$(built reader_times)
python3 "$bench/made_plan.py" 12 1 | sed 's/^line,zero$/line,infinite/' >"$work/plan.csv"
awk 'BEGIN {
    for (at = 1; at <= 50000; at++) {
        if (at <= 30 || at % 5 < 3) print "call," at ",A" 1 + at * 7 % 48
        else print "free," at ",U" 1 + at % 12
    }
}' >"$work/day.csv"
uptime
"$program" "$work/plan.csv" "$work/day.csv"
uptime
