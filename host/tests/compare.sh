#!/usr/bin/env bash
# compare.sh [CASES [SEED]]: random cases of the calls that take a table through the C interface, 200,000 unless it is told otherwise.
set -u
cd "$(dirname "$0")/../.." || exit 2
. scripts/testing.sh
. scripts/comparing.sh

few=2000
begin_comparing tables "${2:-1}"

# Agreement says something only if a difference is found: one digit of an answer, a bound, a weight, a line too few, a number that is
# missing.
finds "6 passed, 0 failed" "$few" "${replay[@]}"
edited '/^R 0 /s/. keeps$/x keeps/'
finds "5 passed, 1 failed" "$few" "${program[@]}"
edited '/^W 0 /s/[0-9]*$/1/'
finds "5 passed, 1 failed" "$few" "${program[@]}"
edited '/^F 0 /s/.$/0/'
finds "4 passed, 2 failed" "$few" "${program[@]}"
edited '/^C 23 /d'
finds "1 passed, 5 failed" "$few" "${program[@]}"
finds "5 passed, 1 failed" 60 "${replay[@]}"

end_comparing "${1:-200000}"
