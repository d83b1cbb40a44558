#!/bin/sh
# The tests of every crate that has some, run without a proof (rt try --test): a line for each crate, and the status 1
# where a test failed. The gate, .ci/run, proves the crates and runs the same tests as they are built.
cd "$(dirname "$0")/../crates" || exit 1
failed=0
for crate in $(grep -rl --include='*.rt' '#\[test\]' . | cut -d/ -f2 | sort -u); do
    told=$(cd "$crate" && rt try --test --seconds 900 2>&1 < /dev/null) || failed=1
    echo "$crate: $(echo "$told" | grep '^test result' || echo "$told" | tail -n 1)"
done
exit $failed
