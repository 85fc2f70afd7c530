#!/bin/sh
# Seconds, memory and widths of `fleet` on made fleets: 20 crews at 5 stations, 40 at 4, 30 at 6, which have 46,656 states, and 60
# at 4, which have 65,536, the most; as they are made, with ten times as many calls as service, with few calls, and with spread
# rates: bench/fleet.sh [RUNS]. Each time is the least of so many runs, 3 where no number is given. Ends with 1 if one takes more
# than its limit of seconds or 200 MB, or has an interval wider than three last digits.
. "$(dirname -- "$0")/common.sh"
program=$(built hypercube)

whole() { python3 "$bench/whole.py" "$program" fleet "$work/fleet.csv"; }

# The width of the widest interval, in last digits.
widest() {
    "$program" fleet "$work/fleet.csv" | awk -F , '
        $NF ~ /[.]/ { gsub(/[.]/, "", $NF); gsub(/[.]/, "", $(NF - 1)); if ($NF - $(NF - 1) > most) most = $NF - $(NF - 1) }
        END { print most + 0 }'
}

row() {
    python3 "$bench/made_fleet.py" "$1" "$2" "$4" >"$work/fleet.csv"
    echo "$1 $2 $3 $4 $(least 2 "$runs" whole) $(widest)" | awk '
        $5 != 0 { print "the program ended with status " $5; exit 1 }
        { printf "%5d %8d %-7s %8.3f %6.1f %6.1f %7d\n", $1, $2, $4, $6, $3, $7, $8; exit $6 > $3 || $7 > 200 || $8 > 3 }' || over=1
}

over=0
uptime
echo "crews stations kind     seconds  limit     MB  digits"
for kind in made heavy light spread; do
    row 20 5 0.5 "$kind"
    row 40 4 2 "$kind"
    row 30 6 15 "$kind"
    row 60 4 15 "$kind"
done
uptime
exit "$over"
