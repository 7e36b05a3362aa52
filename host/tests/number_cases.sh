#!/usr/bin/env bash
# The stored cases of crates/number_cases, and the lines expected of them, are what scripts/number_cases.py writes.
set -u
cd "$(dirname "$0")/../.." || exit 2
. scripts/testing.sh

fresh=$(mktemp -d) || exit 2
trap 'rm -rf "$fresh"' EXIT

# Sets python to one that runs.
find_python() {
    for python in python3 /usr/bin/python3; do
        "$python" -c '' 2>/dev/null && return
    done
    return 1
}

find_python || { install_packages python3 && find_python; } || give_up "there is no python3 here, and it could not be installed"
"$python" scripts/number_cases.py "$fresh" || give_up "scripts/number_cases.py did not run to its end"

same_stored "$fresh" number_cases scripts/number_cases.py
