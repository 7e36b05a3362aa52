#!/usr/bin/env bash
# Holds the crates to the layout that keeps a change small (docs/DECISIONS.md, "Layout"): short lines in definitions and proofs, short
# functions, and few look-backs from one point of a proof to another.
set -u
shopt -s globstar nullglob
cd "$(dirname "$0")/../.." || exit 2
export LC_ALL=C.UTF-8

passed=0
failed=0

# holds WHAT COMMAND...: a test that passes where the command prints nothing.
holds() {
    local what=$1 found
    shift
    found=$("$@")
    if [ -z "$found" ]; then
        passed=$((passed + 1))
    else
        printf 'layout.sh: not so: %s\n%s\n' "$what" "$found"
        failed=$((failed + 1))
    fi
}

# Lines of definitions and proofs with more than so many characters.
longer_lines() {
    grep --line-number --extended-regexp "^.{$(($1 + 1)),}" crates/*/{specs,proofs}/**/*.antt | cut -d : -f 1,2
}

# The functions of the crates, the longest first: lines, file and name. A function ends where its own brace is closed.
functions() {
    awk '
        /^ *(pub )?(extern "C" )?fn / {
            match($0, /^ */); last = substr($0, 1, RLENGTH) "}"; start = FNR; name = $0
            sub(/^.*fn /, "", name); sub(/[^a-z_0-9].*/, "", name)
        }
        start && $0 == last { print FNR - start + 1, FILENAME, name; start = 0 }
    ' crates/*/src/**/*.rt | sort --numeric-sort --reverse
}

# too_many COUNT LINES: the functions with more than so many lines, where there are more than COUNT of them.
too_many() {
    functions | awk -v most="$1" -v lines="$2" '$1 > lines { all = all $0 "\n"; n++ } END { if (n > most) printf "%s", all }'
}

# Look-backs over one point each, where there are as many as this or more.
look_backs() {
    cat crates/*/proofs/**/*.antt | grep --only-matching '\.before' | wc -l | awk -v most="$1" '$1 >= most { print $1 }'
}

# What the tests look at is there.
seen() {
    [ "$(functions | wc -l)" -gt 100 ] || echo "functions were not found"
}

holds "the crates have functions" seen
holds "no line of a definition or a proof has more than 160 characters" longer_lines 160
holds "no function has more than 110 lines" too_many 0 110
holds "one function alone, the loop of a run, has more than 80 lines" too_many 1 80
holds "at most three functions have more than 60 lines" too_many 3 60
holds "proofs look back over fewer than 50 points" look_backs 50

echo "$passed passed, $failed failed"
[ "$failed" -eq 0 ]
