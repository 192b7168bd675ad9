#!/usr/bin/env bash
# Tries the edits of bench/edits/CRATE/, each of which the prover must refuse as it refuses those of crates/CRATE/must-fail/
# in the gate, which has the few that tell most: each crate with edits in the gate is proved once more before them.
#
# usage: bench/edits.sh [CRATE]...      (all that bench/edits/ has, if none is named)
#        bench/edits.sh --apply         (whether each still can be made; nothing is proved)
#
# It works on a copy of the files as they stand, in which these edits take the place of the gate's, by `rt ci CRATE..`, which
# proves nothing of which it has kept a proof and ends with 'N passed, M failed', or with a kit that keeps nothing by
# `rt must-fail CRATE..`, which proves what the crates stand on and has a line for each edit. The status is 1 where an edit
# is not refused, or can't be made: each of its old lines has to stand in its file exactly once.
set -eu

root=$(dirname -- "$(dirname -- "$(readlink -f -- "${BASH_SOURCE[0]}")")")
cd -- "$root"

# Whether each old line of an edit stands once in the file of the crate that the edit names.
applies() {
    local crate=$1 edit=$2 line file= found
    while IFS= read -r line; do
        case $line in
            'file: '*) file=crates/$crate/${line#file: } ;;
            'old: '*)
                found=$(grep -oF -- "${line#old: }" "$file" | wc -l)
                [ "$found" -eq 1 ] || { echo "$edit: $found times in $file: ${line#old: }" >&2 && return 1; }
                ;;
        esac
    done <"$edit"
    [ -n "$file" ]
}

if [ "${1:-}" = --apply ]; then
    passed=0
    failed=0
    for edit in bench/edits/*/*.edit; do
        crate=$(basename -- "$(dirname -- "$edit")")
        if applies "$crate" "$edit"; then passed=$((passed + 1)); else failed=$((failed + 1)); fi
    done
    echo "$passed passed, $failed failed"
    [ "$failed" -eq 0 ]
    exit
fi

[ $# -gt 0 ] || { mapfile -t crates < <(ls bench/edits) && set -- "${crates[@]}"; }
work=$(mktemp -d)
trap 'rm -rf -- "$work"' EXIT
trap 'exit 130' INT
trap 'exit 143' TERM
tar -c --exclude=out --exclude=must-fail -- crates crates.txt HANDLES | tar -x -C "$work"
for crate in "$@"; do
    cp -R -- "bench/edits/$crate" "$work/crates/$crate/must-fail"
done
cd -- "$work"
git init -q .
# (a kit that keeps what it has passed has this word)
if [[ $(rt help 2>&1 || :) == *--anew* ]]; then
    rt ci "$@"
else
    rt must-fail "$@"
fi
