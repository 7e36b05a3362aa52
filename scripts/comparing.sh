# For tests to source behind testing.sh: random cases through the C interface, against the second engine. A C program calls the library, its
# buffers between guard bytes, and has to print what the second engine expects; and every number has to occur.
# The library is for x86-64. Elsewhere the C program is built by a cross compiler and run under qemu; the second engine runs as it is.
# It defines names and functions, and runs nothing.

passed=0
failed=0

# begin_comparing MIXTURE SEED: builds what is needed. MIXTURE says which cases are compared: tables or texts.
begin_comparing() {
    mixture=$1
    seed=$2
    made=$(mktemp -d) || exit 2
    trap 'rm -rf "$made"' EXIT
    have_rust || give_up "$missing"
    have_c || give_up "$missing"
    have_runner || give_up "$missing"
    make_library || give_up "rt did not write the static library"
    link_c host/c/replay.c "$made/replay" -static || give_up "the C program could not be built"
    (cd host && cargo build --quiet --offline --release -j1 --bin compare) || give_up "the second engine could not be built"
    replay=("${runner[@]}" "$made/replay")
}

# compare CASES PROGRAM...: its last line says what it found.
compare() {
    local cases=$1
    shift
    "$CARGO_TARGET_DIR/release/compare" "$mixture" "$made" "$cases" "$seed" "$@"
}

# finds WANTED CASES PROGRAM...: the comparison ends in this line.
finds() {
    local wanted=$1
    shift
    compare "$@" > "$made/log"
    if [ "$(tail -n 1 "$made/log")" = "$wanted" ]; then
        passed=$((passed + 1))
    else
        tail -n 20 "$made/log" | cut -c 1-300
        echo "$(basename "$0"): the last line should be '$wanted'"
        failed=$((failed + 1))
    fi
}

# edited EDIT: the program, with what it prints changed by sed.
edited() {
    program=(bash -c '"${@:2}" | sed "$1"' - "$1" "${replay[@]}")
}

# end_comparing CASES: compares so many, and adds up.
end_comparing() {
    echo "seed $seed"
    compare "$1" "${replay[@]}" | tee "$made/log"
    [[ $(tail -n 1 "$made/log") =~ ^([0-9]+)\ passed,\ ([0-9]+)\ failed$ ]] || give_up "the comparison did not run to its end"
    passed=$((passed + BASH_REMATCH[1]))
    failed=$((failed + BASH_REMATCH[2]))
    echo "$passed passed, $failed failed"
    [ "$failed" -eq 0 ]
}
