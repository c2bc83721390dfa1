#!/bin/sh
# Processor time and peak memory of `suwhanoki apply` and of `jq -c .` on the same input: a registry
# and N MB of get lines of an unknown id, and half of it. Times are the least of RUNS runs (default 5),
# since other work on the machine only adds. Usage: bench/apply_against_jq.sh PROGRAM [N]
# PROGRAM is crates/suwhanoki/out/suwhanoki after `rt run` there; N is 20 if left out, 26 at most.
# Needs GNU time and jq: apt-get install -y time jq
set -eu
program=$1
megabytes=${2:-20}
runs=${RUNS:-5}
folder=$(mktemp -d)
trap 'rm -rf "$folder"' EXIT

# An input of so many bytes, up to one line.
input() {
    awk -v size="$1" 'BEGIN {
        line = "{\"line\":\"registry\",\"version\":\"7.12.0\",\"types\":[{\"name\":\"dashboard\",\"kind\":\"single\"}]}"
        get = "{\"line\":\"call\",\"call\":{\"do\":\"get\",\"type\":\"dashboard\",\"id\":\"unknown\"}}"
        print line
        for (done = length(line) + 1; done + length(get) + 1 <= size; done += length(get) + 1) print get
    }'
}

# Seconds of the processor and peak kilobytes of a command over the file $1, of the fastest run.
measure() {
    file=$1
    shift
    run=0
    while [ "$run" -lt "$runs" ]; do
        /usr/bin/time -f '%U %S %M' -o "$folder/measured" "$@" <"$file" >/dev/null
        awk '{ print $1 + $2, $3 }' "$folder/measured"
        run=$((run + 1))
    done | sort -n | head -n 1
}

whole=$((megabytes * 1000000))
input "$whole" >"$folder/whole"
input $((whole / 2)) >"$folder/half"
{
    echo "half $(wc -c <"$folder/half") $(measure "$folder/half" "$program" apply) $(measure "$folder/half" jq -c .)"
    echo "whole $(wc -c <"$folder/whole") $(measure "$folder/whole" "$program" apply) $(measure "$folder/whole" jq -c .)"
} | awk '
    { printf "%-6s %9d bytes   apply %6.2f s %7d KB (%.1f times the input)   jq %6.2f s %7d KB   apply / jq: time %.2f, memory %.2f\n",
          $1, $2, $3, $4, $4 * 1024 / $2, $5, $6, $3 / $5, $4 / $6
      time[$1] = $3; memory[$1] = $4 }
    END { printf "whole / half of apply: time %.2f, memory %.2f\n", time["whole"] / time["half"], memory["whole"] / memory["half"] }'
