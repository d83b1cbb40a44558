#!/usr/bin/env bash
# What a run over the bus costs, in instructions as valgrind counts them: a script of 10,000 lines, the drills of
# 1,000 and 10,000 lines with their ratio, and a line at the beginning and at the end of a long script, beside few
# packets in flight and beside 60,000 (a script has at most 65,536 lines; bench/store.sh goes to 100,000), which are
# requests, or responses of one transaction. The same 10,000 lines over the unordered unit (`tasks`). Transfers of 16 blocks, without segments and with 64,
# and WRITEs of 16 KiB with bus resets. A queue of 3,000 and of 10,000 writes, and a pump and its status behind
# few submissions and behind 60,000. And the peak of the heap, by massif, of five nodes with WRITEs of 16 KiB that wait.
# First build the program: cd crates/sbp2 && rt run -- run < stdin
cd "$(dirname "$0")/.." || exit 1
program=${1:-crates/sbp2/out/sbp2}
work=$(mktemp -d)
trap 'rm -r "$work"' EXIT

# the instructions of the program with these words, over its input
count() {
    valgrind --tool=callgrind --callgrind-out-file=/dev/null "$program" "$@" 2>&1 > "$work/out" |
        awk '/Collected/ { print $4 }'
}

[ -n "$(count drill 1 1 < /dev/null)" ] || exit 1

# fifteen lines `append 0 tur` and a `settle`, so many lines in all
appends() {
    echo "begin 1 ready"
    awk -v n="$1" 'BEGIN { for (i = 1; i <= n; i++) print i % 16 ? "append 0 tur" : "settle" }'
}

# so many packets in flight, injected, and then so many pairs of lines that send one more and lose it
flights() {
    awk -v packet="inject 0 $1" -v flying="$2" -v n="$3" 'BEGIN {
        print "begin 1 ready"
        for (i = 1; i <= flying; i++) print packet
        for (i = flying + 1; i <= flying + n; i++) { print packet; print "lose " i }
    }'
}

# a queue: so many writes of one block, a pump each, and a settle behind each sixteenth
queue() {
    echo "begin 1 ready"
    awk -v n="$1" 'BEGIN { for (i = 1; i <= n; i++) { print "submit " i % 64 " A5*512\npump"; if (i % 16 == 0) print "settle" } }'
}

# so many writes, and then so many pumps with a settle behind each sixteenth
pumps() {
    echo "begin 1 ready"
    awk -v writes="$1" -v n="$2" 'BEGIN {
        for (i = 1; i <= writes; i++) print "submit " i % 64 " A5*512"
        for (i = 1; i <= n; i++) { print "pump"; if (i % 16 == 0) print "settle" }
    }'
}

# WRITEs of 16 KiB that wait at four initiators, as many as they have slots
writes() {
    echo "begin 4 ready"
    awk 'BEGIN { for (i = 0; i < 32; i++) for (k = 0; k < 4; k++) print "append " k " write 0 A5*16384" }'
}

# so many equal lengths, as the segments of a page table
segments() {
    awk -v n="$1" -v size="$2" 'BEGIN { printf " seg "; for (i = 1; i <= n; i++) printf "%s%d", (i > 1 ? "," : ""), size }'
}

# 2,000 WRITEs and READs of 16 blocks by turns, with these segments, and a settle behind each sixteenth
transfers() {
    echo "begin 1 ready"
    awk -v segments="$1" 'BEGIN {
        for (i = 1; i <= 2000; i++) {
            print "append 0 " (i % 2 ? "write " i % 4 * 16 " A5*4096+5A*4096" : "read " i % 4 * 16 " 16") segments
            if (i % 16 == 0) print "settle"
        }
    }'
}

# 3,000 WRITEs of 16 KiB in 64 segments, of which 32 wait at a time until a bus reset
resets() {
    echo "begin 1 ready"
    awk -v segments="$(segments 64 256)" 'BEGIN {
        for (i = 1; i <= 3000; i++) {
            print "append 0 write 0 A5*16384" segments
            if (i % 32 == 0) print "reset 0 1\nsee t\nsee 0\nreconnect 0\nsettle"
        }
    }'
}

all=$(appends 10000 | count run)
notes=$(wc -l < "$work/out")
awk -v a="$all" -v n="$notes" 'BEGIN { printf "10,000 lines: %d instructions, %d notes, %d a note\n", a, n, a / n }'

tasks=$(appends 10000 | count tasks)
awk -v a="$all" -v b="$tasks" 'BEGIN { printf "10,000 lines over the unordered unit: %d instructions, %.2f of those of run\n", b, b / a }'

few=$(count drill 1 1000 < /dev/null) many=$(count drill 1 10000 < /dev/null)
awk -v a="$few" -v b="$many" 'BEGIN { printf "drills of 1,000 and 10,000 commands: %d and %d instructions, ratio %.2f\n", a, b, b / a }'

early=$(($(appends 3200 | count run) - $(appends 1600 | count run)))
late=$(($(appends 64000 | count run) - $(appends 62400 | count run)))
awk -v a="$early" -v b="$late" 'BEGIN { printf "a line: %d instructions at the beginning, %d behind 62,400 lines, ratio %.2f\n", a / 1600, b / 1600, b / a }'

# what two lines cost that inject a packet, named so, and lose it
pair() {
    local few=$(($(flights "$2" 10 2000 | count run) - $(flights "$2" 10 1000 | count run)))
    local many=$(($(flights "$2" 60000 2000 | count run) - $(flights "$2" 60000 1000 | count run)))
    awk -v name="$1" -v a="$few" -v b="$many" 'BEGIN { printf "two lines (%s, injected and lost): %d instructions beside 10 packets in flight, %d beside 60,000, ratio %.2f\n", name, a / 1000, b / 1000, b / a }'
}
pair "a request" FFC00140FFC1FFFFF0000400
pair "a response of one transaction" FFC00120FFC1000000000000

for n in 3000 10000; do
    printf 'a queue of %s writes: %s instructions\n' "$n" "$(queue "$n" | count queue)"
done
printf '2,000 transfers of 16 blocks: %s instructions\n' "$(transfers "" | count run)"
printf '2,000 transfers of 16 blocks in 64 segments: %s instructions\n' "$(transfers "$(segments 64 128)" | count run)"
printf '3,000 WRITEs of 16 KiB in 64 segments, with resets: %s instructions\n' "$(resets | count run)"
few=$(($(pumps 1600 1600 | count queue) - $(pumps 1600 800 | count queue)))
many=$(($(pumps 60000 1600 | count queue) - $(pumps 60000 800 | count queue)))
awk -v a="$few" -v b="$many" 'BEGIN { printf "a pump and its status: %d instructions behind 1,600 submissions, %d behind 60,000, ratio %.2f\n", a / 800, b / 800, b / a }'

writes > "$work/writes"
valgrind --tool=massif --massif-out-file="$work/massif" "$program" run < "$work/writes" > "$work/out" 2> "$work/log"
awk -F= '/mem_heap_B/ && $2 > peak { peak = $2 } END { printf "five nodes with WRITEs of 16 KiB: %.1f MB on the heap at the peak\n", peak / 1000000 }' "$work/massif"
