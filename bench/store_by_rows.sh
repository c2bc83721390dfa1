#!/bin/bash
# Measures the index store by its number of rows, and against an ordered map of plain Rust and SQLite in
# memory. A program does each work on an index of few rows and, in turns of about a millisecond, on one
# of many, and reads the processor's clock around the operations alone. All works are run one after
# another, and all of them RUNS times (default 7). Printed are, for each work, the least time of an
# operation on either side, since other work on the machine only adds, and of the ratios of the two sides
# in each run the median with the least and the greatest.
# Usage: bench/store_by_rows.sh [PROGRAM]
# PROGRAM is crates/store_bench/out/store_bench after `rt run -- bulks 1000 2000 2` there. Needs rustc for
# the map, and Debian's python3 for SQLite.
set -eu
cd "$(dirname "$0")/.."
program=${1:-crates/store_bench/out/store_bench}
runs=${RUNS:-7}
made=$(mktemp -d)
trap 'rm -rf "$made"' EXIT
map=$made/btree_rows
rustc -O -o "$map" bench/btree_rows.rs

# Adds the microseconds of an operation on either side to the times of a work, which is done `few_count`
# times on the one side and `many_count` times on the other.
took() {
    local name=$1 few_count=$2 many_count=$3
    shift 3
    "$@" 2>&1 >"$made/printed" | awk -v f="$few_count" -v m="$many_count" '{ print $1 / f / 1000, $2 / m / 1000 }' >>"$made/$name"
}

for ((round = 0; round < runs; round++)); do
    took fills 100000 100000 "$program" fills 1000 100000 100000
    took creates 100000 100000 "$program" creates 1000 100000 100000
    took doubles 100000 100000 "$program" doubles 1000 100000 100000
    took map_fills 100000 100000 "$map" fills 1000 100000 100000
    took map_creates 100000 100000 "$map" creates 1000 100000 100000
    took map_doubles 100000 100000 "$map" doubles 1000 100000 100000
    took gets 200000 200000 "$program" gets 1000 100000 200000
    took pits 4000 4000 "$program" pits 1000 100000 4000
    took reads 1000 1000 "$program" reads 2000 100000 1000
    took bulks 60 60 "$program" bulks 1000 100000 60
    python3 bench/sqlite_rows.py 100000 100000 200000 >>"$made/sqlite"
done

least() { sort -n -k "$2,$2" "$made/$1" | awk -v k="$2" 'NR == 1 { print $k }'; }
# The least of each side, and of the runs' ratios the median, the least and the greatest.
sides() {
    awk '{ print $2 / $1 }' "$made/$1" | sort -n | awk -v what="$2" -v few="$(least "$1" 1)" -v many="$(least "$1" 2)" '
        { ratio[NR] = $1 }
        END { printf "%s: %.2f and %.2f microseconds, ratio %.2f (%.2f to %.2f)\n", what, few, many, ratio[int((NR + 1) / 2)], ratio[1], ratio[NR] }'
}
# The least times of two works, and their ratio.
against() {
    awk -v what="$1" -v a="$2" -v b="$3" 'BEGIN { printf "%s: %.2f and %.2f microseconds, ratio %.2f\n", what, a, b, b / a }'
}
sides fills "creates that fill an index of 1,000 rows, and one of 100,000"
sides map_fills "the same by std's BTreeMap"
sides creates "creates into an index that has 1,000 rows, until it has a tenth more, and one that has 100,000"
sides map_creates "the same by std's BTreeMap"
sides doubles "creates into an index that has 1,000 rows, until it has twice as many, and one that has 100,000"
sides map_doubles "the same by std's BTreeMap"
sides gets "gets of 1,000 rows, and of 100,000"
sides pits "points in time of 1,000 rows, opened and closed, and of 100,000"
sides reads "read_pit of 1,000 rows from the middle of 2,000, and of 100,000"
sides bulks "1,000 single creates into 100,000 rows, and a bulk of as many"
against "a create into 100,000 rows by SQLite, and by the store" "$(least sqlite 1)" "$(least creates 2)"
against "a get of 100,000 rows by SQLite, and by the store" "$(least sqlite 2)" "$(least gets 2)"
