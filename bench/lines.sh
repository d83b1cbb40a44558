#!/usr/bin/env bash
# What a line costs, in instructions as valgrind counts them: `decode` of 20,000 lines of one packet, `run` of 10,000
# appends with a settle behind each sixteenth, and `rom` of examples/rom.hex; with the peak of resident memory in kB.
# First build the program: cd crates/sbp2 && rt run -- run < stdin
cd "$(dirname "$0")/.." || exit 1
program=${1:-crates/sbp2/out/sbp2}
work=$(mktemp -d)
trap 'rm -r "$work"' EXIT

awk 'BEGIN { for (i = 0; i < 20000; i++) print "FFC01500 FFC1FFFF F0040010 00000001" }' > "$work/decode"
awk 'BEGIN {
    print "begin 1 ready"
    for (i = 0; i < 10000; i++) { print "append 0 tur"; if (i % 16 == 15) print "settle" }
}' > "$work/run"
cp examples/rom.hex "$work/rom"

measure() {
    local word=$2 count peak
    valgrind --tool=callgrind --callgrind-out-file=/dev/null "$program" "$word" < "$work/$word" 2> "$work/log" > "$work/out"
    count=$(awk '/Collected/ { print $4 }' "$work/log")
    [ -n "$count" ] || { tail -n 3 "$work/log" >&2; exit 1; }
    peak=$(/usr/bin/time -f %M "$program" "$word" < "$work/$word" 2>&1 > "$work/out")
    echo "$1: $count instructions, peak $peak kB"
}
measure "decode of 20,000 lines" decode
measure "run of 10,000 appends" run
measure "rom of examples/rom.hex" rom
