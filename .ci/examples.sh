#!/usr/bin/env bash
# Replays each script of examples/ and compares what the program writes, byte by byte, with the text beside it,
# which was written from the definitions: by hand, or of a drilled script by bench/drill_reference.py.
#
# usage: .ci/examples.sh [PROGRAM]...        (both programs as `rt ci` built them, by each of its compilers, if none is given)
#
# Each script has to end with status 0 and nothing on standard error. Prints a line for each case that fails, and
# at the end 'N passed, M failed', counted once for each program. The status is 1 where one failed, where a script
# has no text or a text no script, where a program isn't there, or where there is nothing to compare.
set -u

root=$(dirname -- "$(dirname -- "$(readlink -f -- "${BASH_SOURCE[0]}")")")
work=$(mktemp -d)
trap 'rm -rf -- "$work"' EXIT
passed=0
failed=0

fail() {
    failed=$((failed + 1))
    printf 'FAILED: %s\n' "$*"
}

# Replays a script by a program, and compares its text.
compare() {
    local program=$1 script=$2 name status
    name=$(basename -- "$script" .waitq)
    timeout 60 "$program" replay <"$script" >"$work/text" 2>"$work/said"
    status=$?
    if [ "$status" != 0 ] || [ -s "$work/said" ]; then
        fail "$name: status $status: $(head -n 1 -- "$work/said")"
    elif ! cmp -- "$work/text" "${script%.waitq}.text" >"$work/said" 2>&1; then
        fail "$name: $(cat -- "$work/said")"
    else
        passed=$((passed + 1))
    fi
}

if [ $# = 0 ]; then
    for name in waitq_replay waitq; do
        set -- "$@" "$root/crates/$name/out/$name"
        [ ! -e "$root/crates/$name/out/$name.by-rattle" ] || set -- "$@" "$root/crates/$name/out/$name.by-rattle"
    done
fi
shopt -s nullglob
for text in "$root"/examples/*.text; do
    [ -e "${text%.text}.waitq" ] || fail "$(basename -- "$text") has no script"
done
for program; do
    if [ ! -x "$program" ]; then
        fail "$program is not built"
        continue
    fi
    for script in "$root"/examples/*.waitq; do
        compare "$program" "$script"
    done
done
[ $((passed + failed)) -gt 0 ] || fail "examples/ has no script"
printf '%d passed, %d failed\n' "$passed" "$failed"
[ "$failed" = 0 ]
