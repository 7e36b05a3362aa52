#!/usr/bin/env bash
# compare_text.sh [CASES [SEED]]: random texts to read and tables to print through the C interface, 100,000 unless it is told otherwise.
set -u
cd "$(dirname "$0")/../.." || exit 2
. scripts/testing.sh
. scripts/comparing.sh

few=500
begin_comparing texts "${2:-1}"

# Agreement says something only if a difference is found: one digit of a table, a place, a length, a line too few.
edited '/^T 0 /s/. keeps$/x keeps/'
finds "3 passed, 2 failed" "$few" "${program[@]}"
edited '/^T 50 /s/^T 50 [0-9]*/T 50 7/'
finds "3 passed, 2 failed" "$few" "${program[@]}"
edited '/^P 0 /s/^P 0 0 0 0 0 0 [0-9]*/P 0 0 0 0 0 0 9/'
finds "3 passed, 2 failed" "$few" "${program[@]}"
edited '/^P 51 /d'
finds "2 passed, 3 failed" "$few" "${program[@]}"

end_comparing "${1:-100000}"
