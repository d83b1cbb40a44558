#!/usr/bin/env bash
# A delivery to an initiator costs its own bytes and a fixed number of steps, and so does an action. Builds
# bench/initiator/main.txt over the crates and prints instructions for each packet, as valgrind counts them: of a
# write of 4, 64 and 256 bytes that an initiator receives and answers, beside decoding it and encoding its response
# alone; and of a read of AGENT_STATE with its answer, beside coding alone.
set -e
cd "$(dirname "$0")/.."
work=$(mktemp -d)
trap 'rm -r "$work"' EXIT
git archive HEAD crates crates.txt HANDLES | tar x -C "$work"
mkdir -p "$work/crates/initiator_bench/src"
cp bench/initiator/main.txt "$work/crates/initiator_bench/src/main.rt"
echo 'initiator_bench: sbp_base async_packet orb_list sbp_journal sbp_initiator' >> "$work/crates.txt"
(cd "$work/crates/initiator_bench" && rt run -- 1 4 1 > "$work/log" 2>&1) || { tail -5 "$work/log"; exit 1; }

# the instructions of a run
count() {
    valgrind --tool=callgrind --callgrind-out-file=/dev/null "$work/crates/initiator_bench/out/initiator_bench" "$@" 2>&1 |
        awk '/Collected/ { print $4 }'
}

# the instructions of a turn: those of 4,000 turns without those of 2,000
turn() {
    echo $((($(count "$1" "$2" 4000) - $(count "$1" "$2" 2000)) / 2000))
}

for size in 4 64 256; do
    all=$(($(turn 0 $size) / 2)) coding=$(($(turn 1 $size) / 2))
    awk -v s=$size -v a="$all" -v c="$coding" 'BEGIN { printf "a write of %d bytes: %d instructions, %d for coding alone, ratio %.1f\n", s, a, c, a / c }'
done
all=$(turn 2 4) coding=$(turn 3 4)
awk -v a="$all" -v c="$coding" 'BEGIN { printf "AGENT_STATE: %d instructions, %d for coding alone, ratio %.1f\n", a, c, a / c }'
