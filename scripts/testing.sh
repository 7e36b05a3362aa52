# For scripts and tests to source: what they need beyond the toolchain, from Debian's packages, and what they do alike.
# It defines names and functions, and runs nothing.

# The library for C, which make_library writes.
library=crates/nadhirukh/out/libnadhirukh.a

# This file, which a command that runs alone holds a lock on.
testing=$(realpath "${BASH_SOURCE[0]}")

# alone COMMAND...: tests run side by side, and apt-get, or what writes a file that another test reads, must not run beside itself.
alone() (
    exec 9< "$testing" && flock 9 && "$@"
)

# install_packages PACKAGE...: only root on Debian can.
install_packages() {
    [ "$(id -u)" -eq 0 ] || return 1
    command -v apt-get > /dev/null || return 1
    echo "installing $*" >&2
    export DEBIAN_FRONTEND=noninteractive
    alone apt-get -qq update && alone apt-get -qq install --yes --no-install-recommends "$@" > /dev/null
}

# have COMMAND PACKAGE...: sees that a command is there, and installs the packages where it is not. Where that fails, missing says so.
have() {
    local command=$1
    shift
    command -v "$command" > /dev/null && return
    install_packages "$@"
    command -v "$command" > /dev/null && return
    missing="there is no $command here, and it could not be installed (Debian's $*)"
    return 1
}

# Rust, for the second engine. What cargo builds lies in host/target.
have_rust() {
    export CARGO_TARGET_DIR=$PWD/host/target
    have cargo cargo rustc
}

# The programs and the library that rt writes are for x86-64. Elsewhere Debian's cross compilers build for it, and qemu runs what is
# built, with the shared libraries of the cross compilers.
on_x86() {
    [ "$(uname -m)" = x86_64 ]
}

# What starts a program for x86-64, linked statically or not: sets runner.
have_runner() {
    local libraries=/usr/x86_64-linux-gnu
    runner=()
    on_x86 && return
    runner=(qemu-x86_64 -L "$libraries")
    have qemu-x86_64 qemu-user && have "$libraries/lib64/ld-linux-x86-64.so.2" libc6-amd64-cross
}

# A C compiler for x86-64: sets compiler.
have_c() {
    if on_x86; then
        compiler=gcc
        have gcc gcc libc6-dev
    else
        compiler=x86_64-linux-gnu-gcc
        have "$compiler" gcc-x86-64-linux-gnu libc6-dev-amd64-cross
    fi
}

# The same for C++: sets cxx.
have_cxx() {
    if on_x86; then
        cxx=g++
        have g++ g++
    else
        cxx=x86_64-linux-gnu-g++
        have "$cxx" g++-x86-64-linux-gnu
    fi
}

# quietly COMMAND...: shows what a command prints only where it fails, without zero bytes, which a shell's variable does not hold.
quietly() {
    local log
    log=$("$@" 2>&1 | tr -d '\0'; exit "${PIPESTATUS[0]}") && return
    echo "$log"
    return 1
}

# rt_in CRATE WORD...: rt in the folder of a crate.
rt_in() (
    cd "crates/$1" && shift && rt "$@"
)

# Proves the crate `nadhirukh` and those below it, and writes the library: a library of crates that are proved alone.
write_library() {
    local sum
    sum=$(made_of) && rt_in nadhirukh lib && echo "$sum $(sha256sum < "$library")" > "$library.sum"
}

# A sum of all that the library is made of.
made_of() {
    { rt version && find crates.txt crates/*/{src,specs,proofs} -type f -print0 2> /dev/null | sort -z | xargs -0 sha256sum; } | sha256sum
}

# Writes the library, unless it is there and was made of the same.
make_library() {
    alone fresh_library
}

fresh_library() {
    [ -f "$library" ] && [ "$(made_of) $(sha256sum < "$library")" = "$(cat "$library.sum" 2> /dev/null)" ] && return
    quietly write_library
}

# make_program NAME: proves a program and those below it, and builds it as crates/NAME/out/NAME, unless nothing has changed; and runs it.
make_program() {
    quietly rt_in "$1" run < "crates/$1/stdin"
}

# proving COMMAND...: a command by which rt proves crates. A line for each crate is shown as it is done; all that the command prints is in a
# file, which is named where it fails.
proving() {
    local log status
    command -v rt > /dev/null || stop "rt, the command of the Rattle toolchain, is not on the path"
    log=$(mktemp) || stop "there is no room for what rt says"
    "$@" 2>&1 | tee "$log" | awk '/^crate [a-z_]+: /{ name = $2; sub(":", "", name) } /^logic=/{ print name, $1 ~ /^logic=proved/ ? "proved" : "NOT PROVED"; fflush() }'
    status=${PIPESTATUS[0]}
    [ "$status" -eq 0 ] && rm -f "$log" && return
    grep ': error' "$log" | head -n 5 | cut -c 1-300
    stop "$* ended with status $status; all that it said is in $log"
}

# link_c SOURCE PROGRAM [FLAG...]: builds a C program with the library. have_c and make_library come first.
link_c() {
    local source=$1 program=$2
    shift 2
    "$compiler" -std=c89 -pedantic-errors -Wall -Wextra -Werror -O2 -Iinclude "$@" "$source" "$library" -o "$program"
}

# Says why it does not go on, and ends.
stop() {
    echo "$(basename "$0"): $*" >&2
    exit 1
}

# The same for a test: nothing was tried.
give_up() {
    echo "$(basename "$0"): $*"
    echo "0 passed, 1 failed"
    exit 1
}

# same_stored FOLDER CRATE GENERATOR: the stdin and stdout of a crate are those that its generator has written to a folder.
same_stored() {
    local name passed=0 failed=0
    for name in stdin stdout; do
        if cmp "$1/$name" "crates/$2/$name"; then
            passed=$((passed + 1))
        else
            echo "$(basename "$0"): crates/$2/$name is not what $3 writes"
            failed=$((failed + 1))
        fi
    done
    echo "$passed passed, $failed failed"
    [ "$failed" -eq 0 ]
}
