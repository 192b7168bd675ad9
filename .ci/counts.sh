#!/usr/bin/env bash
# Counts what each public call takes that nothing meets, and an event of a replay: instructions, by valgrind's
# callgrind, and calls of the system, by strace. Compares them with bench/counts.txt.
#
# usage: .ci/counts.sh            (it needs what `rt ci` built; without valgrind or strace it says so, and passes)
#        .ci/counts.sh --write    writes the counts into the table
#
# A count is the difference of two runs, one of twice as many calls as the other, by the number of calls: so what comes
# before the first call and behind the last falls out, and no time is measured. It fails where one is more than a
# twentieth above the table, and where a call of the system comes that the table does not have. Prints a line for each
# that fails, and at the end 'N passed, M failed'. The status is 1 where one failed.
set -u

root=$(dirname -- "$(dirname -- "$(readlink -f -- "${BASH_SOURCE[0]}")")")
cd -- "$root" || exit 1
table=bench/counts.txt
calls=crates/bench_calls/out/bench_calls
replay=crates/waitq/out/waitq
# How many calls the shorter run makes, and how many events.
few_calls=200
few_events=20000
work=$(mktemp -d)
trap 'rm -rf -- "$work"' EXIT
passed=0
failed=0

stop() {
    printf 'counts.sh: %s\n' "$*" >&2
    exit 1
}

# What a run of a command takes, one a line: the instructions, and how often it makes each call of the system.
take() {
    valgrind --tool=callgrind --callgrind-out-file=/dev/null --log-file="$work/log" "$@" <"$work/given" >"$work/text" ||
        stop "status $?: $*"
    sed -n 's/.*Collected : \([0-9]*\).*/instructions \1/p' "$work/log"
    strace -f -c -o "$work/calls" "$@" <"$work/given" >"$work/text" || stop "status $?: $*"
    awk '$1 ~ /^[0-9.]+$/ && $NF != "total" { print $NF, $4 }' "$work/calls"
}

# The row of a name: what the longer of two runs takes above the shorter one, by a number of calls. A call of the system
# that comes less than once in a hundred is left out: a script is read by blocks, and memory grows by leaps.
row() {
    awk -v name="$1" -v number="$2" '
        FNR == NR { few[$1] = $2; next }
        $1 == "instructions" { text = sprintf(" %.1f", ($2 - few[$1]) / number) text; next }
        100 * ($2 - few[$1]) >= number { text = text sprintf(" %s=%.3g", $1, ($2 - few[$1]) / number) }
        END { print name text }
    ' "$work/few" "$work/many"
}

# The row of each public call, once its program has said that it goes the way that its name says.
count_calls() {
    local name said
    : >"$work/given"
    "$calls" >"$work/said" || stop "status $?: $calls"
    ! grep -v 'went as it should$' "$work/said" >&2 || stop "a call went another way"
    while read -r name said; do
        take "$calls" "$name" "$few_calls" >"$work/few"
        take "$calls" "$name" "$((2 * few_calls))" >"$work/many"
        row "$name" "$few_calls"
    done <"$work/said"
}

# The row of an event of a replay.
count_events() {
    local size few many
    for size in few many; do
        python3 bench/make_script.py "$few_events" >"$work/given"
        take "$replay" replay >"$work/$size"
        printf -v "$size" '%d' "$(sed -n 's/^events //p' "$work/text")"
        few_events=$((2 * few_events))
    done
    row replay_event "$((many - few))"
}

# Compares the row of a name with that of the table: a line for each count that is too high.
compare() {
    awk -v name="$1" '
        function keep(into,    i, half) {
            into["instructions"] = $2
            for (i = 3; i <= NF; i++) { split($i, half, "="); into[half[1]] = half[2] }
        }
        $1 != name { next }
        FNR == NR { found = 1; keep(old); next }
        { keep(new) }
        END {
            if (!found) print "the table has no row of it"
            for (it in new) if (found && new[it] > 1.05 * old[it])
                printf "%s %s, in the table %s\n", it, new[it], old[it] + 0
        }
    ' "$table" "$work/rows"
}

for tool in valgrind strace python3; do
    command -v "$tool" >/dev/null || {
        printf 'left out, since there is no %s (apt-get update && apt-get install -y valgrind strace)\n' "$tool"
        echo '0 passed, 0 failed'
        exit 0
    }
done
for program in "$calls" "$replay"; do
    [ -x "$program" ] || stop "$program is not built"
done
count_calls >"$work/rows" || exit 1
count_events >>"$work/rows" || exit 1
if [ "${1:-}" = --write ]; then
    { sed -n '/^#/p' "$table" && cat -- "$work/rows"; } >"$work/table" && cp -- "$work/table" "$table"
    exit
fi
while read -r name _; do
    said=$(compare "$name")
    if [ -z "$said" ]; then
        passed=$((passed + 1))
    else
        failed=$((failed + 1))
        printf 'FAILED: %s: %s\n' "$name" "${said//$'\n'/; }"
    fi
done <"$work/rows"
while read -r name; do
    failed=$((failed + 1))
    printf 'FAILED: %s: no call has this name\n' "$name"
done < <(awk 'FNR == NR { there[$1]; next } !/^#/ && !($1 in there) { print $1 }' "$work/rows" "$table")
printf '%d passed, %d failed\n' "$passed" "$failed"
[ "$failed" = 0 ]
