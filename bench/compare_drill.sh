#!/usr/bin/env bash
# Compares the program's drills with those of drill_reference.py, a second reading of the same definitions: the
# summary, and the whole text of the replay of the drill's script. It needs python3, and fails at the first difference.
#
# usage: bench/compare_drill.sh [SEED]...           (0, 1, 7 and 2^64 - 1 if none is given)
#
# It writes the summaries as a table.
set -eu

root=$(cd "$(dirname "$(readlink -f "${BASH_SOURCE[0]}")")/.." && pwd)
reference=$root/bench/drill_reference.py
work=$(mktemp -d)
trap 'rm -rf "$work"' EXIT
[ $# -gt 0 ] || set -- 0 1 7 18446744073709551615

# Fails where a file is not the same as the reference's.
same() {
    cmp "$work/$1" "$work/$1.expected" || {
        echo "compare_drill.sh: seed $seed, $count calls: the $1 differs" >&2
        exit 1
    }
}

echo "| seed | calls | events | refused | asleep |"
echo "|---|---|---|---|---|"
for seed; do
    for count in 0 1 100 20000; do
        "$reference" "$seed" "$count" >"$work/summary.expected"
        "$root/waitq" drill "$seed" "$count" >"$work/summary"
        same summary
        "$reference" --text "$seed" "$count" >"$work/text.expected"
        "$reference" --script "$seed" "$count" >"$work/script"
        "$root/waitq" replay <"$work/script" >"$work/text"
        same text
        awk -v seed="$seed" -v count="$count" '
            { value[$1] = $2 }
            END { printf "| %s | %s | %s | %s | %s |\n", seed, count, value["events"], value["refused"], value["asleep"] }
        ' "$work/summary"
    done
done
