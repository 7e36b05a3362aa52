#!/usr/bin/env bash
# The program run, at the edges of its input and on random tables and goals, prints the lines of the second engine.
set -uo pipefail
cd "$(dirname "$0")/../.." || exit 2
. scripts/testing.sh

made=$(mktemp -d) || exit 2
trap 'rm -rf "$made"' EXIT

have_rust || give_up "$missing"
have_runner || give_up "$missing"
make_program run || give_up "rt did not build the program"
(cd host && cargo run --quiet --offline --release -j1 --bin lines -- "$made") || give_up "the second engine's lines were not written"

passed=0
failed=0
for input in "$made"/*.in; do
    if "${runner[@]}" crates/run/out/run < "$input" | cmp - "${input%.in}.out"; then
        passed=$((passed + 1))
    else
        echo "run.sh: $(basename "$input" .in) failed"
        failed=$((failed + 1))
    fi
done
echo "$passed passed, $failed failed"
[ "$failed" -eq 0 ]
