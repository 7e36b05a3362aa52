#!/usr/bin/env bash
# The second engine's own tests. The last line is 'N passed, M failed' over all of them.
set -u
cd "$(dirname "$0")/../.." || exit 2
. scripts/testing.sh

have_rust || give_up "$missing"

log=$(mktemp)
(cd host && cargo test --quiet --offline --release -j1) > "$log" 2>&1
status=$?

# Each test program says 'test result: ok. 3 passed; 0 failed; ...'.
sum() {
    grep -E '^test result: ' "$log" | grep -oE "[0-9]+ $1;" | awk '{ n += $1 } END { print n + 0 }'
}
passed=$(sum passed)
failed=$(sum failed)
if [ "$status" -ne 0 ]; then
    cat "$log"
    [ "$failed" -eq 0 ] && failed=1
fi
if [ "$status" -eq 0 ] && [ "$passed" -eq 0 ]; then
    cat "$log"
    failed=1
fi
rm -f "$log"

echo "$passed passed, $failed failed"
[ "$failed" -eq 0 ]
