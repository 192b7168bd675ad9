#!/bin/sh
# Times round trips of two threads by `set_and_wake` and `wait_event` beside a std Condvar and a raw futex, with the
# threads of all programs on the same processors: both on one, and each on its own. It needs rustc, taskset, and the
# program built by `rt run` in crates/bench_threads. A run starts each program once, in turn with the other, for 10 rounds
# of each kind, whose middle one counts; of the runs' ratios it writes the middle one with the quarters and the ends.
# RUNS: how many runs of each placement (25). ONE: the first processor (0), and OTHER: the second (1). BUSY: how many
# loops keep processors busy meanwhile (0). WITH: a command that starts the programs, as `chrt -f 50`.
set -eu
cd "$(dirname "$0")/.."
. bench/runs.sh
build_plain events "$made/plain"
build_pin
one=${ONE:-0}
other=${OTHER:-1}

# The middle round of each name and program, in nanoseconds: NAME WHO MIDDLE.
rounds() {
    {
        placed "$pin" "$made/plain" trips
        placed "$pin" crates/bench_threads/out/bench_threads events trips | sed 's/^/domain /'
    } | middle_rounds
}

# NAME NANOSECONDS RATIO RATIO of one run: to the Condvar, and to the futex.
ratios() {
    rounds | ratios_of domain %.3f condvar futex
}

# The middle one of a column for each name, with the quarters and the ends.
quarters() {
    spread "$1" | awk -v what="$2" '{
        printf "  %s, %s: middle %s, half of them %s to %s, all %s to %s\n", $1, what, $2, $3, $4, $5, $6 }'
}

for pin in "$one" "$other"; do
    if [ "$pin" = "$one" ]; then echo "both threads on processor $one:"; else echo "on processors $one and $other:"; fi
    : >"$made/all"
    for _ in $(seq "${RUNS:-25}"); do
        ratios >>"$made/all"
    done
    quarters 2 nanoseconds
    quarters 3 'ratio to the Condvar'
    quarters 4 'ratio to the futex'
done
