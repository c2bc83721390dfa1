#!/bin/bash
# Measures how reading, migrating and writing a document grow with its size. The document is a
# dashboard of 200 panels, 400 kB of text in one attribute and forty references, and then 2 to 32
# times as large. Each figure is the processor time (user and system) of the call for each 400 kB,
# less that of the same program without the call; the least of RUNS runs (default 5), and its ratio to
# the figure of the smallest document.
# Usage: bench/transform_by_size.sh [PROGRAM]
# PROGRAM is crates/transform_bench/out/transform_bench after `rt run -- migrate 1 2` there.
set -eu
cd "$(dirname "$0")/.."
program=${1:-crates/transform_bench/out/transform_bench}
runs=${RUNS:-5}
made=$(mktemp -d)
trap 'rm -rf "$made"' EXIT

TIMEFORMAT='%U %S'
# Seconds of processor time of a command.
seconds() { { time "$@" >"$made/printed"; } 2>&1 | awk '{ print $1 + $2 }'; }
least() { sort -n | head -1; }

# Microseconds of a call for each 400 kB of a document so many times as large.
each() {
    local call=$1 times=$2 rounds=$((3200 / $2)) run
    for ((run = 0; run < runs; run++)); do
        echo "$(seconds "$program" "$call" "$times" "$rounds") $(seconds "$program" "$call" "$times" 0)"
    done | awk '{ print ($1 - $2) / 3200 * 1000000 }' | least
}

for call in from_js migrate to_js; do
    one=$(each "$call" 1)
    for times in 1 2 4 8 16 32; do
        awk -v call="$call" -v n="$times" -v one="$one" -v now="$(each "$call" "$times")" \
            'BEGIN { printf "%s of a document %d times as large: %.0f microseconds for each 400 kB, ratio %.2f\n", call, n, now, now / one }'
    done
done
