#!/usr/bin/env bash
# The table of docs/performance.md, with the day and the machine: runs the scripts of this folder that read what a line or a packet
# costs. Where NAME.. are given, only these: bench/all.sh lines run. They need valgrind; lines, run and ratios read the proved program,
# so build it first: cd crates/sbp2 && rt run -- run < stdin. target, initiator and store prove and build a program of their own over
# the crates, which takes as long as the proofs of these, where none of them is kept.
cd "$(dirname "$0")/.." || exit 1
[ $# -gt 0 ] || set -- lines run target initiator store ratios
command -v valgrind > /dev/null || { echo "first install valgrind" >&2; exit 1; }
case " $* " in
    *" lines "* | *" run "* | *" ratios "*)
        [ -x crates/sbp2/out/sbp2 ] || { echo "first build the program: cd crates/sbp2 && rt run -- run < stdin" >&2; exit 1; } ;;
esac

# what a script told, as rows of the table, with commas in numbers of four digits or more
rows() {
    awk -v script="$1" '{
        at = index($0, ": ")
        what = substr($0, 1, at - 1)
        n = split(substr($0, at + 2), words, " ")
        figures = ""
        for (k = 1; k <= n; k++) {
            word = words[k]
            match(word, /^[0-9]*/)
            digits = substr(word, 1, RLENGTH)
            rest = substr(word, RLENGTH + 1)
            while (match(digits, /[0-9][0-9][0-9][0-9]+$/)) {
                rest = "," substr(digits, length(digits) - 2) rest
                digits = substr(digits, 1, length(digits) - 3)
            }
            figures = figures " " digits rest
        }
        print "| " script ".sh | " what " |" figures " |"
    }'
}

echo "Read on $(date -u +%Y-%m-%d), $(nproc) processors,$(sed -n 's/^model name[^:]*://p' /proc/cpuinfo | head -n 1)."
echo
echo "| Script | What | Figures |"
echo "|---|---|---|"
status=0
for name in "$@"; do
    told=$("bench/$name.sh") || { status=1; told="not read: its script failed"; }
    echo "$told" | rows "$name"
done
exit $status
