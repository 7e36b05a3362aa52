#!/usr/bin/env bash
# The stored cases of crates/call_cases, and the lines expected of them, are what the second engine writes.
set -u
cd "$(dirname "$0")/../.." || exit 2
. scripts/testing.sh

# The groups of cases that are stored.
groups=(check goal run weigh find read print)

fresh=$(mktemp -d) || exit 2
trap 'rm -rf "$fresh"' EXIT

have_rust || give_up "$missing"
(cd host && cargo run --quiet --offline --release -j1 --bin call_cases -- "$fresh" "${groups[@]}") ||
    give_up "the second engine's program did not run to its end"

same_stored "$fresh" call_cases "the second engine"
