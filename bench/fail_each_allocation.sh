#!/usr/bin/env bash
# Runs the worked script with each allocation failing in turn, until one run comes to its end.
#
# usage: bench/fail_each_allocation.sh [SCRIPT]        (examples/wait_set_wake.waitq if it isn't given)
#
# SCRIPT is a file NAME.waitq with its expected text beside it in NAME.text. A run may end with status
# 7, out of memory, and then its text is a front of the expected one; or with status 0 and just the
# expected text, which ends the loop. Anything else fails. Each run goes by `rt try`, which takes about
# half a minute.
set -u

root=$(cd "$(dirname "$(readlink -f "${BASH_SOURCE[0]}")")/.." && pwd)
script=$(readlink -f "${1:-$root/examples/wait_set_wake.waitq}")
expected=${script%.waitq}.text
work=$(mktemp -d)
trap 'rm -rf "$work"' EXIT
cd "$root/crates/waitq" || exit 1

fail() {
    echo "fail_each_allocation.sh: allocation $number: $1" >&2
    tail -n 5 "$work/said" >&2
    exit 1
}

# Whether the text of the run is a front of the expected one.
is_front() {
    cmp -s -n "$(stat -c %s "$work/text")" "$work/text" "$expected" &&
        [ "$(stat -c %s "$work/text")" -le "$(stat -c %s "$expected")" ]
}

number=0
while :; do
    number=$((number + 1))
    rt try --fail-alloc "$number" -- replay <"$script" >"$work/text" 2>"$work/said"
    status=$?
    grep -q "ended status=$status" "$work/said" || fail "the program wasn't run"
    case $status in
    7)
        is_front || fail "status 7, and the text isn't a front of $expected"
        echo "allocation $number: status 7, $(stat -c %s "$work/text") bytes of text"
        ;;
    0)
        cmp -s "$work/text" "$expected" || fail "status 0, and the text isn't that of $expected"
        echo "allocation $number: status 0, the whole text"
        exit 0
        ;;
    *) fail "status $status" ;;
    esac
done
