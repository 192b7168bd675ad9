#!/usr/bin/env bash
# Measures what the gate takes from nothing: `rt ci --anew` in a fresh clone, or `rt ci` with a kit that has no such word
# and always starts from nothing, with the processor seconds of each crate's proof, its proof with tests, its edits, and
# its programs with what is run, as a table for docs/MEASURING.md.
#
# usage: bench/gate_time.sh [--keep] [--folder FOLDER] [NAME]...
#        bench/gate_time.sh --start | --start-copy [--folder FOLDER]
#
# NAME: these crates and those below them alone, as `rt ci NAME..` does where it takes names. --keep: plain `rt ci`, which
# proves only what it has not kept, where it keeps something, and is the real gate at the same time. --start: a first
# `./waitq replay` in place of the gate; --start-copy: a first `./waitq copy`.
# --folder: a clone that is there already, in place of one of this repository's last commit.
#
# It uses the processors that the caller may use (taskset). The gate's own output goes to standard error, the table and
# the sums to standard output; the status is that of the gate. It needs rt, git and python3.
set -eu

root=$(dirname -- "$(dirname -- "$(readlink -f -- "${BASH_SOURCE[0]}")")")
folder=
what=--anew
while [ $# -gt 0 ]; do
    case $1 in
        --keep) what= ;;
        --start | --start-copy) what=$1 ;;
        --folder) folder=$(readlink -f -- "$2") && shift ;;
        -*) sed -n '6,7s/^# *//p' -- "${BASH_SOURCE[0]}" >&2 && exit 2 ;;
        *) break ;;
    esac
    shift
done
work=$(mktemp -d)
trap 'kill $(jobs -p) 2>/dev/null || :; wait; rm -rf -- "$work"' EXIT
trap 'exit 130' INT
trap 'exit 143' TERM

# Whether the kit's gate takes a word --anew and names.
takes_words() {
    [[ $(rt help 2>&1 || :) == *--anew* ]]
}

if [[ $what != --start* ]] && ! takes_words; then
    what=
    [ $# = 0 ] || { echo "gate_time.sh: the gate of this kit takes no names" >&2 && exit 2; }
fi
if [ -z "$folder" ]; then
    folder=$work/clone
    git clone -q -- "$root" "$folder"
fi
cd -- "$folder"
commit=$(git log -1 --format=%h)
[ -z "$(git status --porcelain)" ] || commit="$commit with changes"
printf 'waitq 1\n' >"$work/script"
case $what in
    --start) set -- ./waitq replay ;;
    --start-copy) set -- ./waitq copy "$work/script" "$work/copied" ;;
    *) set -- rt ci ${what:+"$what"} "$@" ;;
esac
COMMIT=$commit python3 "$root/bench/gate_time.py" "$@" <"$work/script" &
wait $!
