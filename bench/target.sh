#!/usr/bin/env bash
# What a delivery to the target costs, in instructions as valgrind counts them, beside reading and writing the
# same packets: builds bench/target/main.txt over the crates, and prints the instructions of a command's four
# packets through `receive` alone, those of one reading and one writing of these and of the four packets that
# they bring, and their ratio.
set -e
cd "$(dirname "$0")/.."
work=$(mktemp -d)
trap 'rm -r "$work"' EXIT
git archive HEAD crates crates.txt HANDLES | tar x -C "$work"
mkdir -p "$work/crates/target_bench/src"
cp bench/target/main.txt "$work/crates/target_bench/src/main.rt"
echo 'target_bench: sbp_base async_packet rbc_disk sbp_journal sbp_target' >> "$work/crates.txt"
(cd "$work/crates/target_bench" && rt run -- 1 1 > "$work/log" 2>&1) || { tail -5 "$work/log"; exit 1; }

# the instructions of a run
count() {
    valgrind --tool=callgrind --callgrind-out-file=/dev/null "$work/crates/target_bench/out/target_bench" "$@" 2>&1 |
        awk '/Collected/ { print $4 }'
}

none=$(count 0 0)
awk -v none="$none" -v received="$(count 1000 0)" -v coded="$(count 0 1000)" 'BEGIN {
    a = (received - none) / 1000
    b = (coded - none) / 1000
    printf "a command: %d instructions through receive, %d to read and write its packets, ratio %.2f\n", a, b, a / b
}'
