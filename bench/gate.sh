#!/usr/bin/env bash
# What the gate costs, crate by crate, as the Markdown table of docs/gate.md with the day and the machine: the processor minutes, user
# and system, that `rt ci` spends on each crate's own proof, on its proof with its tests, and on its edits with the check of the crate
# that they begin from.
#
#   bench/gate.sh              the whole repository, from nothing
#   bench/gate.sh NAME..       these crates and those below them, from nothing
#   bench/gate.sh --watch PID  an rt ci that runs already, as the process PID, from here to its end
#
# The first two run `rt ci --anew` on a copy of what is committed. It reads four times a second how much processor time each prover has
# used, so what a prover does in its last quarter of a second is missed, and what is built and run is in the row of other work. A
# crate that an rt ci without --anew takes from kept work has no row. Other work on the machine makes it longer by the clock.
watched=
if [ "$1" = --watch ]; then
    watched=$2
    kill -0 "$watched" || exit 1
else
    top=$(cd "$(dirname "$0")/.." && pwd) || exit 1
    work=$(mktemp -d)
    trap 'rm -rf "$work"' EXIT
    git clone -q "$top" "$work/copy" && cd "$work/copy" || exit 1
    rt ci --anew "$@" > "$work/log" 2>&1 &
    watched=$!
fi
ticks=$(getconf CLK_TCK)

# the processes below the one that is watched
below() {
    ps -e -o ppid=,pid= | awk -v top="$watched" '
        { children[$1] = children[$1] " " $2 }
        END {
            queue[last = 1] = top
            for (k = 1; k <= last; k++) {
                count = split(children[queue[k]], found)
                for (j = 1; j <= count; j++) print queue[++last] = found[j]
            }
        }'
}

declare -A used row
while kill -0 "$watched" 2> /dev/null; do
    for number in $(below); do
        read -r stat 2> /dev/null < "/proc/$number/stat" || continue
        fields=(${stat##*) })
        # the number of a process that ended is given again, so one is known by when it began too
        process="$number/${fields[19]}"
        used[$process]=$((fields[11] + fields[12]))
        if [ -z "${row[$process]}" ]; then
            words=$(tr '\0' ' ' 2> /dev/null < "/proc/$number/cmdline")
            place=$(readlink "/proc/$number/cwd")
            case "$words" in
                */rattle\ *--crate-name*) name=${words#*--crate-name }; name=${name%% *} ;;
                *) row[$process]="other 0"; continue ;;
            esac
            kind=1
            case " $words " in *" --test "*) kind=2 ;; esac
            case "$place" in */rt-edit*) kind=3 ;; esac
            row[$process]="$name $kind"
        fi
    done
    sleep 0.25
done
status=0
[ "$1" = --watch ] || { wait "$watched"; status=$?; }

echo "Read on $(date -u +%Y-%m-%d), $(nproc) processors,$(sed -n 's/^model name[^:]*://p' /proc/cpuinfo | head -n 1)."
echo
echo "| Crate | Proof | With tests | Edits | Sum |"
echo "|---|---|---|---|---|"
for process in "${!used[@]}"; do
    echo "${row[$process]} ${used[$process]}"
done | awk -v ticks="$ticks" '
    { all[$1] += $3; spent[$1, $2] += $3; sum[$2] += $3; total += $3 }
    function minutes(n) { return n ? sprintf("%.1f", n / ticks / 60) : "" }
    END {
        for (name in all) if (name != "other")
            print "| " name " | " minutes(spent[name, 1]) " | " minutes(spent[name, 2]) " | " minutes(spent[name, 3]) " | " minutes(all[name]) " |" | "sort"
        close("sort")
        print "| what is linked and run | | | | " minutes(sum[0]) " |"
        print "| sum | " minutes(sum[1]) " | " minutes(sum[2]) " | " minutes(sum[3]) " | " minutes(total) " |"
    }'
[ "$1" = --watch ] || tail -n 1 "$work/log"
exit $status
