#!/usr/bin/env bash
# The cost of a call of the store of packets must not grow with the packets kept. Builds bench/store/main.txt over the
# crates and prints the processor time of 200,000 turns beside 1,000 and 100,000 packets in flight, all of one
# transaction (more only where the processor's caches are missed: about 2 at most), and of 200,000 and 400,000 turns
# beside 1,000 (in proportion: about 2); and, where valgrind is there, the instructions of a turn beside both.
set -e
cd "$(dirname "$0")/.."
work=$(mktemp -d)
trap 'rm -r "$work"' EXIT
git archive HEAD crates crates.txt HANDLES | tar x -C "$work"
mkdir -p "$work/crates/store_bench/src"
cp bench/store/main.txt "$work/crates/store_bench/src/main.rt"
echo 'store_bench: sbp_base packet_store' >> "$work/crates.txt"
(cd "$work/crates/store_bench" && rt run -- 1 1 > "$work/log" 2>&1) || { tail -5 "$work/log"; exit 1; }

# the processor time of a run, in milliseconds
cost() {
    { TIMEFORMAT='%U %S'; time "$work/crates/store_bench/out/store_bench" "$@"; } 2> "$work/time"
    awk '{ printf "%d\n", ($1 + $2) * 1000 }' "$work/time"
}

ratio() {
    awk -v what="$1" -v a="$2" -v b="$3" 'BEGIN { printf "%s: %d ms and %d ms, ratio %.2f\n", what, a, b, b / a }'
}

few=$(cost 1000 200000)
ratio "200,000 turns beside 1,000 and 100,000 packets in flight" "$few" "$(($(cost 100000 200000) - $(cost 100000 1)))"
ratio "200,000 and 400,000 turns" "$few" "$(cost 1000 400000)"

# the instructions of a run
count() {
    valgrind --tool=callgrind --callgrind-out-file=/dev/null "$work/crates/store_bench/out/store_bench" "$@" 2>&1 |
        awk '/Collected/ { print $4 }'
}

command -v valgrind > "$work/log" || exit 0
few=$(($(count 1000 2000) - $(count 1000 1000)))
many=$(($(count 100000 2000) - $(count 100000 1000)))
awk -v a="$few" -v b="$many" 'BEGIN { printf "a turn: %d instructions beside 1,000 packets in flight, %d beside 100,000, ratio %.2f\n", a / 1000, b / 1000, b / a }'
