# shellcheck shell=sh disable=SC2034
# What the scripts here share: their folder, how many runs a time is the least of, and a folder that is gone at their end.
set -eu
bench=$(CDPATH='' cd -- "$(dirname -- "$0")" && pwd)
runs=${1:-3}
work=$(mktemp -d)
trap 'rm -rf "$work"' EXIT

# The path of a crate's program, which is proved and built where it is not built yet.
built() {
    folder=$bench/../crates/$1
    if [ ! -x "$folder/out/$1" ]; then
        echo "$1: proving and building the program" >&2
        log=$(mktemp)
        (cd "$folder" && rt run) >"$log" 2>&1 || [ -x "$folder/out/$1" ] || { cat "$log" >&2; exit 1; }
        rm -f "$log"
    fi
    echo "$folder/out/$1"
}

# The line with the least number in this column of a command's lines, over so many runs.
least() {
    column=$1
    count=$2
    shift 2
    for _ in $(seq "$count"); do
        "$@" 2>&1
    done | sort -n -k "$column,$column" | head -n 1
}
