#!/usr/bin/env bash
# The cost of a line must not grow with the length of the input. Runs the proved program twice for each
# word and prints the processor time of both runs and their ratio: `run` over 10,000 and 20,000 append
# lines, with a settle after each 31 (in proportion is about 2), and over lines of 4 kB, 1 MB and 10 MB of
# them (about 10); `decode` over traces of 1 MB and 10 MB (about 10).
# First build the program: cd crates/sbp2 && rt run -- run < stdin
cd "$(dirname "$0")/.." || exit 1
program=${1:-crates/sbp2/out/sbp2}
work=$(mktemp -d)
trap 'rm -r "$work"' EXIT

# blocks written and read in turn, and a settle before the slots are all in use
appends() {
    awk -v n="$1" 'BEGIN {
        print "begin 1 ready"
        for (i = 0; i < n; i++) {
            if (i % 2) print "append 0 read " i % 64 " 1"; else print "append 0 write " i % 64 " A5*512"
            if (i % 31 == 30) print "settle"
        }
        print "settle"
    }'
}

# writes of four blocks, spelled in 4,096 digits
digits() {
    awk -v n="$1" 'BEGIN {
        for (i = 0; i < 256; i++) data = data "00112233445566Ff"
        print "begin 1 ready"
        for (i = 0; i < n; i++) {
            print "append 0 write " i % 60 " " data
            if (i % 31 == 30) print "settle"
        }
        print "settle"
    }'
}

# block writes of 512 bytes, 1,061 bytes a line
trace() {
    awk -v n="$1" 'BEGIN {
        for (i = 0; i < 128; i++) payload = payload "0011AAFF"
        for (i = 0; i < n; i++) print "FFC00910 FFC10000 11000000 02000000 " payload
    }'
}

# the processor time of a word over so many lines of an input, in milliseconds
cost() {
    "$2" "$3" > "$work/input"
    { TIMEFORMAT='%U %S'; time "$program" "$1" < "$work/input" > "$work/output"; } 2> "$work/time"
    awk '{ printf "%d\n", ($1 + $2) * 1000 }' "$work/time"
}

# both runs of a word, and their ratio
compare() {
    awk -v what="$1" -v a="$(cost "$2" "$3" "$4")" -v b="$(cost "$2" "$3" "$5")" \
        'BEGIN { printf "%s: %d ms and %d ms, ratio %.2f\n", what, a, b, b / a }'
}

compare "run of 10,000 and 20,000 lines" run appends 10000 20000
compare "run of 1 MB and 10 MB" run digits 250 2500
compare "decode of 1 MB and 10 MB" decode trace 950 9500
