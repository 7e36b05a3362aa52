#!/usr/bin/env bash
# The proved library through its C interface, linked into C programs: on the stored cases one prints the lines of the second engine;
# the gateway of host/gateway.c prints what is stored, as C and as C++; and valgrind finds no fault in either. The header is good in
# every standard, its own functions and the example of README.md do what they should, and the archive needs what the header says. Linked
# into a Rust program, by the declarations of host/src/ffi.rs, the library agrees with the second engine.
# The library is for x86-64. There the programs are built and run as they are; elsewhere by a cross compiler and under qemu, and
# without valgrind and Rust.
set -u
cd "$(dirname "$0")/../.." || exit 2
. scripts/testing.sh

passed=0
failed=0
made=$(mktemp -d) || exit 2
trap 'rm -rf "$made"' EXIT

# One test: its name, then the command.
try() {
    local name=$1
    shift
    if "$@"; then
        passed=$((passed + 1))
    else
        echo "library.sh: $name failed"
        failed=$((failed + 1))
    fi
}

have_c || give_up "$missing"
have_cxx || give_up "$missing"
have_runner || give_up "$missing"
make_library || give_up "rt did not write the static library"

replay() {
    "${runner[@]}" "$made/replay" < crates/call_cases/stdin > "$made/stdout" && cmp "$made/stdout" crates/call_cases/stdout
}

# link_cxx SOURCE PROGRAM: as link_c does, as C++. Not linked statically: Debian's cross compiler finds no static library of mathematics,
# which each C++ program links.
link_cxx() {
    "$cxx" -x c++ -std=c++98 -pedantic-errors -Wall -Wextra -Werror -O2 -Iinclude -I"$made" "$1" \
        -x none "$library" -o "$2"
}

# gateway PROGRAM: prints what is stored, and ends with status 0.
gateway() {
    "${runner[@]}" "$1" > "$made/stdout" && cmp "$made/stdout" host/gateway.stdout
}

# The numbers of endings and refusals: each line of the header that says what a place is names one.
numbers() {
    sed -nE 's/^#define NADHIRUKH_[A-Z_]+ ([0-9]+)u +\/\*.*; place: .*/\1/p' include/nadhirukh.h
}

# The gateway has words for every number of the header, and for no other.
endings() {
    local places
    places=$(grep -c '; place: ' include/nadhirukh.h) || return
    numbers > "$made/numbers"
    [ "$(wc -l < "$made/numbers")" -eq "$places" ] || { echo "library.sh: not every place in the header stands beside a number"; return 1; }
    "${runner[@]}" "$made/gateway" endings > "$made/endings" && cut -d ' ' -f 1 "$made/endings" | cmp - "$made/numbers"
}

# The header alone, in every standard that a compiler may keep to.
standards() {
    local standard
    for standard in c89 c99 c11 c17; do
        "$compiler" -x c -std=$standard -pedantic-errors -Wall -Wextra -Werror -fsyntax-only include/nadhirukh.h || return
    done
    for standard in c++98 c++11 c++17; do
        "$cxx" -x c++ -std=$standard -pedantic-errors -Wall -Wextra -Werror -fsyntax-only include/nadhirukh.h || return
    done
}

# The archive needs two functions of the C library and no other, as the header says.
needs() {
    "${compiler%gcc}nm" -u "$library" | sed -n 's/^ *U //p' | sort -u | paste -sd ' ' > "$made/needs"
    echo "memcpy memset" | cmp - "$made/needs"
}

# The example of README.md: its indented lines from the one that includes the header up to the next text.
write_example() {
    sed -n '/^    #include "nadhirukh.h"$/,/^[^ ]/{ /^[^ ]/d; s/^    //; p; }' README.md > "$made/example.h"
    grep -q '^enum outcome estimate' "$made/example.h"
}

# header_functions PROGRAM: the functions of the header and the example of README.md, at their edges.
header_functions() {
    "${runner[@]}" "$1" < crates/run/stdin
}

# Under valgrind programs are linked with the shared C library, since valgrind watches its allocations, and buffers have no guard
# bytes, since it would take a read of those for a good one.
valgrind_build() {
    link_c host/c/replay.c "$made/replay-bare" -g -DGUARD=0 && link_c host/gateway.c "$made/gateway-shared" -g
}

# Finds reads and writes beside a block, decisions by bytes that were never written, and blocks that are not given back.
watch() {
    valgrind --quiet --error-exitcode=99 --leak-check=full --show-leak-kinds=all --errors-for-leak-kinds=all "$@"
}

watch_replay() {
    watch "$made/replay-bare" < crates/call_cases/stdin > "$made/stdout" && cmp "$made/stdout" crates/call_cases/stdout
}

watch_gateway() {
    watch "$made/gateway-shared" > "$made/stdout" && cmp "$made/stdout" host/gateway.stdout
}

# The second engine's test that links the library, so that the declarations for Rust are tried as those for C are.
rust_links() {
    have_rust || { echo "library.sh: $missing"; return 1; }
    (cd host && cargo test --quiet --offline --release -j1 --features library --test library) \
        > "$made/log" 2>&1 && grep -q '^test result: ok. [1-9]' "$made/log" && return
    cat "$made/log"
    return 1
}

try "building a C program with the library" link_c host/c/replay.c "$made/replay" -static
try "running the stored cases through the C interface" replay
try "building the gateway as C" link_c host/gateway.c "$made/gateway" -static
try "running the gateway" gateway "$made/gateway"
try "words for every number" endings
try "building the gateway as C++" link_cxx host/gateway.c "$made/gateway-cxx"
try "running the gateway built as C++" gateway "$made/gateway-cxx"
try "the header in every standard" standards
try "what the archive needs" needs
try "the example of README.md" write_example
try "building it and the header's functions as C" link_c host/c/header.c "$made/header" -static -I"$made"
try "the header's functions in C" header_functions "$made/header"
try "building it and the header's functions as C++" link_cxx host/c/header.c "$made/header-cxx"
try "the header's functions in C++" header_functions "$made/header-cxx"
if on_x86; then
    have valgrind valgrind libc6-dbg || echo "library.sh: $missing"
    try "building programs for valgrind" valgrind_build
    try "the stored cases under valgrind" watch_replay
    try "the gateway under valgrind" watch_gateway
    try "random cases through the declarations for Rust" rust_links
else
    echo "library.sh: valgrind is left out, since it runs programs of its own machine alone; nothing is counted for it"
    echo "library.sh: the Rust program is left out, since the library does not link into one of this machine; nothing is counted for it"
fi
echo "$passed passed, $failed failed"
[ "$failed" -eq 0 ]
