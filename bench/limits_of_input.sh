#!/bin/sh
# Inputs at the limits of `suwhanoki apply`, too long for a proved test: a line of 4,194,304 bytes
# and of one more, an input of 26,214,400 bytes and of one more, nesting of 64 and of 65, and a
# text that is not UTF-8. Usage: bench/limits_of_input.sh PROGRAM
# PROGRAM is crates/suwhanoki/out/suwhanoki after `rt run` there. Prints each case, and ends with 1
# where one falls short.
set -eu
program=$1
folder=$(mktemp -d)
trap 'rm -rf "$folder"' EXIT
failed=0

registry='{"line":"registry","version":"7.12.0","types":[{"name":"dashboard","kind":"single"}]}'
before='{"line":"call","call":{"do":"create","type":"dashboard","id":"a","attributes":{"x":'
after='}}}'

# The text $1, $2 times.
repeat() {
    awk -v text="$1" -v times="$2" 'BEGIN { for (i = 0; i < times; i++) printf "%s", text }'
}

# A registry and a create whose one attribute is what standard input gives.
create() {
    printf '%s\n%s' "$registry" "$before"
    cat
    printf '%s' "$after"
}

# Runs the program over the file `input`: it has to end with $2 and to write a line that begins with $3.
expect() {
    status=0
    "$program" apply <"$folder/input" >"$folder/output" || status=$?
    written=$(head -c "${#3}" "$folder/output")
    if [ "$status" = "$2" ] && [ "$written" = "$3" ]; then
        echo "ok: $1"
    else
        echo "FALLS SHORT: $1: status $status, $(head -c 200 "$folder/output")"
        failed=1
    fi
}

# 88 bytes of the line are not of the text.
{ printf '"'; repeat x 4194216; printf '"'; } | create >"$folder/input"
expect "a line of $(tail -n +2 "$folder/input" | wc -c) bytes" 0 '{"answer":{"ok":'
{ printf '"'; repeat x 4194217; printf '"'; } | create >"$folder/input"
expect "a line of $(tail -n +2 "$folder/input" | wc -c) bytes" 6 '{"fault":"Limit","which":"line"}'

head -c 26214400 /dev/zero | tr '\0' '\n' >"$folder/input"
expect "26,214,400 newlines" 0 ''
head -c 26214401 /dev/zero | tr '\0' '\n' >"$folder/input"
expect "26,214,401 newlines" 6 '{"fault":"Limit","which":"input"}'

# Three levels are there without the lists.
{ repeat '[' 61; repeat ']' 61; } | create >"$folder/input"
expect "nesting of 64" 0 '{"answer":{"ok":'
{ repeat '[' 62; repeat ']' 62; } | create >"$folder/input"
expect "nesting of 65" 3 '{"at":2,"fault":"BadInput","kind":"TooDeep"}'
{ repeat '[' 125; repeat ']' 125; } | create >"$folder/input"
expect "nesting of 128" 3 '{"at":2,"fault":"BadInput","kind":"BadJson"}'

printf '"\377"' | create >"$folder/input"
expect "a text that is not UTF-8" 3 '{"at":2,"fault":"BadInput","kind":"BadJson"}'
exit "$failed"
