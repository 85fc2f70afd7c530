#!/bin/sh
# Times of comparing 16 made plans of ten units by 1, 2 and 4 workers, in one run: bench/study.sh [RUNS]. Each time is the
# least of so many runs, 3 where no number is given.
#
# Each line has the seconds of the whole program, the most memory that it had, and the share of one worker's seconds.
. "$(dirname -- "$0")/common.sh"
program=$(built hypercube)

cd "$work"
names=
for number in $(seq 16); do
    "$program" make 10 "$number" >"$number.csv"
    names="$names${names:+, }\"$number.csv\""
done
echo "plans = [$names]" >study.toml
echo 'measures = ["loss", "interdistrict", "travel"]' >>study.toml

whole() { python3 "$bench/whole.py" "$program" compare study.toml --workers "$1"; }

uptime
echo "workers  seconds     MB  share"
for workers in 1 2 4; do
    "$program" compare study.toml --workers "$workers" >"$workers.report"
    cmp 1.report "$workers.report"
    ours=$(least 2 "$runs" whole "$workers")
    alone=${alone:-$ours}
    echo "$workers $ours $alone" | awk '
        $2 != 0 { print "the program ended with status " $2; exit 1 }
        { printf "%7d %8.3f %6.1f %6.2f\n", $1, $3, $4, $3 / $6 }'
done
uptime
