#!/usr/bin/env bash
# Wrong definitions that a theorem has to refuse, and not a worked case. Each definition/NAME.edit changes the definition of `model`, and the
# proofs of `model` that fit a wrong definition as well. Without the worked cases `model` is then proved, and the crate whose theorem the line
# 'refused: FILE NAME' names: there the first error has to be.
# An edit is written as rt's must-fail edits are, but for this line, and that a file is named from its crate on. A line 'without: MODULE' takes a
# module of the proofs of `model` out as well, where a theorem in it refuses the edit too.
set -u
shopt -s nullglob
cd "$(dirname "$0")/../.." || exit 2
. scripts/testing.sh

repository=$PWD
scratch=$(mktemp -d) || exit 2
trap 'rm -rf "$scratch"' EXIT

# The crates that the definition and the theorems about it are in, each behind those that it stands on.
crates=(numbers wire model grammar semantics)

# take_out MODULE: a module of the proofs of `model`, and those that cite it.
take_out() {
    local module=$1 file
    rm -f "crates/model/proofs/$module.antt"
    sed -i "/^\(pub \)\?mod $module\$/d" crates/model/proofs/Lib.antt
    for file in $(grep --files-with-matches "proofs\.$module\." crates/model/proofs/*.antt); do
        take_out "$(basename "$file" .antt)"
    done
}

# proved_up_to CRATE: proves the crates of the current folder up to this one, in their order. Where one fails, what rt said of it is in the
# file said, and its name is in failed.
proved_up_to() {
    for failed in "${crates[@]}"; do
        rt_in "$failed" lib --jobs 1 > said 2>&1 || return
        [ "$failed" != "$1" ] || return 0
    done
    failed=$1
    echo "no crate $1 is proved here" > said
    return 1
}

# A repository of these crates alone, without the worked cases, and proved.
lay_out() {
    local name
    mkdir -p "$scratch/right" && cd "$scratch/right" || return
    for name in "${crates[@]}"; do
        mkdir -p "crates/$name" && cp -R "$repository/crates/$name"/{src,specs,proofs} "crates/$name" || return
        grep "^$name:" "$repository/crates.txt" >> crates.txt || return
    done
    take_out Cases
    proved_up_to "${crates[-1]}" && return
    cat said
    return 1
}

# replace FILE OLD NEW: a text that stands once in a file.
replace() {
    local text rest
    text=$(cat "$1") || return
    rest=${text#*"$2"}
    [ -n "$2" ] && [ "$rest" != "$text" ] && [ "$rest" = "${rest#*"$2"}" ] || return
    printf '%s\n' "${text/"$2"/"$3"}" > "$1"
}

# apply EDIT: in the repository that is the current folder. Sets where, the file and the name of what has to refuse it.
apply() {
    local line file='' old=''
    where=''
    while IFS= read -r line; do
        case $line in
        'refused: '*) where=${line#refused: } ;;
        'without: '*) take_out "${line#without: }" ;;
        'file: '*) file=crates/${line#file: } ;;
        'old: '*) old=${line#old: } ;;
        'new: '*) replace "$file" "$old" "${line#new: }" || { echo "a text that does not stand once in $file: $old"; return 1; } ;;
        esac
    done < "$1"
}

# first_error CRATE: the first error in what rt said of a crate that is not of a fact which an earlier error took away: its file, which rt names
# from the crate's folder, and the name of what it is in.
first_error() {
    grep ': error: ' | grep --invert-match --extended-regexp 'error: [0-9]+ declarations? that depends? on ' |
        sed -n "1s|^\(\./\)\?\([^:]*\):[0-9]*:[0-9]*: error: [^\`]*\`\([^\`]*\)\`.*|$1/\2 \3|p"
}

# try EDIT: prints what is wrong, and nothing where the edit is refused as it says.
try() {
    local name found failed
    name=$(basename "$1" .edit)
    cp -R "$scratch/right" "$scratch/$name" && cd "$scratch/$name" || { echo "no room for it"; return; }
    apply "$1" || return
    if proved_up_to "${where%%/*}"; then
        echo "it is not refused"
    else
        found=$(first_error "$failed" < said)
        [ "$found" = "$where" ] || echo "refused at ${found:-no fact of $failed}, and not at $where"
    fi
    rm -rf "$scratch/$name"/crates/*/out # what rt keeps there takes room
}

command -v rt > /dev/null || give_up "rt, the command of the Rattle toolchain, is not on the path"
(lay_out) || give_up "the crates are not proved without the worked cases"

edits=("$repository"/host/tests/definition/*.edit)
for edit in "${edits[@]}"; do
    while [ "$(jobs -r | wc -l)" -ge "$(nproc)" ]; do wait -n; done
    (try "$edit") > "$scratch/$(basename "$edit" .edit).wrong" &
done
wait

passed=0
failed=0
for edit in "${edits[@]}"; do
    name=$(basename "$edit" .edit)
    if [ -s "$scratch/$name.wrong" ]; then
        echo "definition.sh: $name: $(cat "$scratch/$name.wrong")"
        failed=$((failed + 1))
    else
        passed=$((passed + 1))
    fi
done
echo "$passed passed, $failed failed"
[ "$failed" -eq 0 ]
