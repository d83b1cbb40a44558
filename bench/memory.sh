#!/usr/bin/env bash
# What the program does where memory, its source or its sink fails: it runs scripts with the allocation that fails
# counted up from the first one to the last one, and then with the read or the write that fails, or that moves one
# byte alone. A run without memory has to end with status 5, one whose source fails with 3, one whose sink fails
# with 4, each with a front of the text; or a run ends as the one in which nothing fails. It prints how many calls
# were tried, and ends with 1 where a run ended otherwise.
# First build the program: cd crates/sbp2 && rt run -- run < stdin
cd "$(dirname "$0")/.." || exit 1
program=${1:-crates/sbp2/out/sbp2}
work=$(mktemp -d)
trap 'rm -r "$work"' EXIT

# Counts the calls of malloc and realloc, of read and of write. The call AT of the kind FAIL fails, or moves one byte.
cat > "$work/fails.c" <<'C'
#include <errno.h>
#include <stdio.h>
#include <stdlib.h>
#include <string.h>
#include <sys/syscall.h>
#include <unistd.h>

void *__libc_malloc(size_t);
void *__libc_realloc(void *, size_t);

static const char *fail = "";
static unsigned long at, allocations, reads, writes;

__attribute__((constructor)) static void begin(void) {
    fail = getenv("FAIL");
    at = strtoul(getenv("AT"), 0, 10);
    allocations = reads = writes = 0;
}

__attribute__((destructor)) static void end(void) {
    char text[99];
    int length = snprintf(text, sizeof text, "%lu %lu %lu\n", allocations, reads, writes);
    if (!strcmp(fail, "count")) syscall(SYS_write, 9, text, length);
}

static int is_it(const char *kind, unsigned long call) { return call == at && !strcmp(fail, kind); }

void *malloc(size_t size) { return is_it("memory", ++allocations) ? 0 : __libc_malloc(size); }

void *realloc(void *kept, size_t size) { return is_it("memory", ++allocations) ? 0 : __libc_realloc(kept, size); }

ssize_t read(int file, void *into, size_t size) {
    if (is_it("read", ++reads)) { errno = EIO; return -1; }
    return syscall(SYS_read, file, into, is_it("short-read", reads) && size ? 1 : size);
}

ssize_t write(int file, const void *from, size_t size) {
    if (is_it("write", ++writes)) { errno = EIO; return -1; }
    return syscall(SYS_write, file, from, is_it("short-write", writes) && size ? 1 : size);
}
C
cc -O1 -shared -fPIC -o "$work/fails.so" "$work/fails.c" || exit 1

# ROM, login, commands, a reset, a reconnect and the logout
cat > "$work/usual-session" <<'SCRIPT'
begin 1 cold
rom 0
settle
login 0 0 2
settle
append 0 inquiry
append 0 capacity
settle
append 0 write 8 11*512+22*512 seg 512,500,12 pay 7
append 0 read 8 2 seg 1000,24 pay 7
settle
reset 1 0
see t
see 0
reconnect 0
settle
append 0 read 9 1
settle
logout 0
settle
SCRIPT
cp vectors/run/hostile-317.sbp2 "$work/hostile-317"
# a line of each row of docs/formats.md, with a comment behind each, so that a call of the source takes one of them
# and the text of each line is written before the next one is read
awk '{ printf "%s\n", $0; for (k = length($0) + 2; k < 512; k++) printf "#"; printf "\n" }' > "$work/every-line" <<'SCRIPT'
begin 2 ready
append 1 tur
deliver 1
repeat 1
lose 3
timeout 3
settle
agentreset 1
settle
append 0 write 3 A5*512 seg 12,500 pay 5
step 4
put 0 read 3 1
low 0
link 0
ring 0
enable 0
settle
append 0 eject
append 0 load
append 0 tur
append 0 tur
dummy 0 5
abort 0 4
settle
abortset 0
settle
lureset 0
settle
treset 0
settle
query 0 0
state 1
inject 1 FFC00110FFC2FFFFF0040028000800000000000010000800
settle
reset 2 0 1
see t
tick
see 0
see 1
reconnect 0
settle
reconnect 1
settle
rom 1
settle
logout 1
settle
key 1 0102030405060708
login 1 1 0 pass 0102030405060708
settle
SCRIPT

# the program over a script, with the call AT of the kind FAIL other than the rest
run() {
    FAIL=$2 AT=$3 LD_PRELOAD="$work/fails.so" "$program" run < "$work/$1" > "$work/out" 2> "$work/err"
}

# tries each call of a kind, so many, over a script; where one is felt, the run has to end with this status
try() {
    local script=$1 kind=$2 calls=$3 status=$4 felt=0 same=0 other=0 ended
    for ((at = 1; at <= calls; at++)); do
        run "$script" "$kind" "$at"
        ended=$?
        if [ "$ended" = 0 ] && cmp -s "$work/out" "$work/whole" && [ ! -s "$work/err" ]; then
            same=$((same + 1))
        elif [ "$ended" = "$status" ] && cmp -s -n "$(stat -c %s "$work/out")" "$work/out" "$work/whole" && [ ! -s "$work/err" ]; then
            felt=$((felt + 1))
        else
            other=$((other + 1))
            echo "$script, $kind $at: status $ended"
        fi
    done
    echo "$script, $kind: $calls calls, $felt with status $status and a front of the text, $same as without, $other otherwise"
    failed=$((failed + other))
}

failed=0
for script in usual-session hostile-317 every-line; do
    run "$script" count 0 9> "$work/calls" || exit 1
    mv "$work/out" "$work/whole"
    read -r allocations reads writes < "$work/calls"
    try "$script" memory "$allocations" 5
    [ "$script" = every-line ] || continue
    try "$script" read "$reads" 3
    try "$script" write "$writes" 4
    try "$script" short-read "$reads" 3
    try "$script" short-write "$writes" 4
done
exit $((failed > 0))
